"""Accidents with a partition's files, and the person who puts them right.

The bridges of a partition are stopped, and its folder is copied. Then something happens to it, and both are started
again. If they refuse to start, the person puts the copy back.
"""
import contextlib
import os
import random
import shutil
import time
from collections.abc import Callable, Iterator, Sequence

from issuer_host.facts.journals import POSITION, journal_path
from issuer_host.facts.partitions import partition_journal
from trials.bridges.farm import Farm, PARTITIONS, SHARDS
from trials.bridges.managed import ManagedBridge, TERMINATE

# So long a start may take until it is refused, and so long a host has to serve to be taken for one that goes on.
REFUSED_SECONDS = 60.0
LOOK_SECONDS, WATCHED_SECONDS = 0.1, 4.0
KEPT, AWAY = ".kept", ".away"
# So often a person starts what was refused without a look at its files.
STARTS = 2
SEALS, MARK, WORK, AUDIT = ".seals", ".run", ".work", ".audit"
# What may befall a file beside the journals.
DAMAGES: "dict[str, Callable[[str], object]]" = {}


def damage(does: Callable[[str], object]) -> Callable[[str], object]:
    DAMAGES[does.__name__] = does
    return does


@damage
def zeros(path: str) -> None:
    """What a loss of power leaves on some file systems."""
    size = os.path.getsize(path)
    with open(path, "r+b") as file:
        file.seek(size // 2)
        file.write(bytes(size - size // 2))


@damage
def torn(path: str) -> None:
    os.truncate(path, max(os.path.getsize(path) - 7, 0))


@damage
def flipped(path: str) -> None:
    with open(path, "r+b") as file:
        at = max(os.path.getsize(path) // 2, 0)
        file.seek(at)
        byte = file.read(1)
        file.seek(at)
        file.write(bytes([byte[0] ^ 1]) if byte else b"x")


@damage
def gone(path: str) -> None:
    os.remove(path)


@damage
def named_pipe(path: str) -> None:
    """A file that hangs whoever opens it without care."""
    os.remove(path)
    os.mkfifo(path, 0o600)


def copy_folder(folder: str, to: str) -> None:
    """Copies a folder's regular files, which may be written meanwhile: position and seals before the journals."""
    os.mkdir(to)
    names = filter(lambda name: os.path.isfile(os.path.join(folder, name)), os.listdir(folder))
    for name in sorted(names, key=lambda name: (not name.endswith(POSITION), not name.endswith(SEALS))):
        with contextlib.suppress(FileNotFoundError):
            shutil.copy2(os.path.join(folder, name), os.path.join(to, name))


def grows(folder: str, copy: str) -> bool:
    """Waits until a journal of a folder has more than its copy. Only then would the copy forget something."""
    names = [name for name in os.listdir(copy) if name.endswith(".v2")]
    until = time.monotonic() + REFUSED_SECONDS
    while time.monotonic() < until:
        if any(
            os.path.getsize(os.path.join(folder, name)) > os.path.getsize(os.path.join(copy, name)) for name in names
        ):
            return True
        time.sleep(LOOK_SECONDS)
    return False


class Partition:
    """A partition whose bridges a person has stopped."""

    def __init__(self, farm: Farm, number: int) -> None:
        self.farm, self.number = farm, number
        self.journal = partition_journal(farm.room, number)
        self.folder = os.path.dirname(self.journal)
        self.bridges = [bridge for bridge in farm.bridges if bridge.partition == number]

    def copy(self) -> None:
        """Copies the folder's files. (The folder itself may be where a disk is mounted.)"""
        shutil.rmtree(self.folder + KEPT, ignore_errors=True)
        copy_folder(self.folder, self.folder + KEPT)

    def put_back(self) -> None:
        for name in os.listdir(self.folder):
            os.remove(os.path.join(self.folder, name))
        for name in os.listdir(self.folder + KEPT):
            shutil.copy2(os.path.join(self.folder + KEPT, name), os.path.join(self.folder, name))

    def put_file_back(self, path: str) -> None:
        with contextlib.suppress(FileNotFoundError):
            os.remove(path)
        shutil.copy2(os.path.join(self.folder + KEPT, os.path.basename(path)), path)

    def begin(self) -> None:
        """The units are started by hand."""
        with self.farm.lock:
            for bridge in self.bridges:
                bridge.release()

    def are_down(self) -> bool:
        with self.farm.lock:
            return all(bridge.is_down for bridge in self.bridges)

    def wait_until_down(self, seconds: float) -> bool:
        """Waits until both bridges ended with a status after which their unit isn't started again."""
        until = time.monotonic() + seconds
        while time.monotonic() < until:
            if self.are_down():
                return True
            time.sleep(LOOK_SECONDS)
        return False

    def is_served(self) -> bool:
        """Whether a bridge's host is the program, and no careful start any more."""
        with self.farm.lock:
            hosts = [bridge.host() for bridge in self.bridges]
        return any(host is not None and program_of(host).endswith("/issuer") for host in hosts)

    def is_refused(self) -> bool:
        """Waits until both bridges ended for good, or one has served for a while. Returns whether they ended."""
        until, served = time.monotonic() + REFUSED_SECONDS, 0.0
        while time.monotonic() < until and served < WATCHED_SECONDS:
            if self.are_down():
                return True
            served = served + LOOK_SECONDS if self.is_served() else 0.0
            time.sleep(LOOK_SECONDS)
        return self.are_down()


def program_of(process: int) -> str:
    """Returns the path of a process's program; nothing if it has ended."""
    try:
        return os.readlink(f"/proc/{process}/exe")
    except OSError:
        return ""


def stop(farm: Farm, bridges: Sequence[ManagedBridge]) -> None:
    with farm.lock:
        for bridge in bridges:
            bridge.hold()
            bridge.signal(TERMINATE)
        for bridge in bridges:
            bridge.wait()


@contextlib.contextmanager
def stopped(farm: Farm, dice: random.Random) -> Iterator[Partition]:
    """A partition's bridges are stopped, and started again at the end."""
    partition = Partition(farm, dice.randrange(PARTITIONS))
    stop(farm, partition.bridges)
    try:
        partition.copy()
        yield partition
    finally:
        partition.begin()


def older(path: str, dice: random.Random) -> bool:
    """Leaves a journal's first records, as an older copy has them. Returns whether it lost some."""
    with open(path, "rb") as file:
        lines = file.readlines()
    if len(lines) < 3:
        return False
    kept = dice.randrange(2, len(lines))
    with open(path, "wb") as file:
        file.writelines(lines[:kept])
    return True


def restore_unsealed(farm: Farm, dice: random.Random) -> None:
    """An older journal is put in place without its seals: no bridge may start over it."""
    with stopped(farm, dice) as partition:
        path = journal_path(partition.journal, dice.randrange(SHARDS))
        is_older = older(path, dice)
        with contextlib.suppress(FileNotFoundError):
            os.remove(path + SEALS)
    if is_older:
        expect_refusal(farm, partition, "a journal that was restored without seals")


def expect_refusal(farm: Farm, partition: Partition, what: str) -> None:
    """Both bridges refuse to start. Then the person puts the right files back."""
    if not partition.wait_until_down(REFUSED_SECONDS):
        farm.faults.append(f"partition {partition.number} went on over {what}")
    stop(farm, partition.bridges)
    partition.put_back()
    partition.begin()


def pull_disk(farm: Farm, dice: random.Random) -> None:
    """A partition's disk goes away over an older copy of its files, with the seals and the mark of then.

    The copy was made while both bridges were stopped, or while one of them served. Both have to end, and so they have
    if a person starts them again without a look.
    """
    partition = Partition(farm, dice.randrange(1, PARTITIONS))
    is_served = dice.random() < 0.5
    if not is_served:
        stop(farm, partition.bridges)
    partition.copy()
    if not is_served:
        partition.begin()
    if not grows(partition.folder, partition.folder + KEPT):
        farm.faults.append(f"partition {partition.number} recorded nothing before its disk went away")
        return
    away = partition.folder + AWAY
    os.rename(partition.folder, away)
    os.rename(partition.folder + KEPT, partition.folder)
    for start in range(1 + STARTS):
        if start:
            partition.begin()
        if not partition.wait_until_down(REFUSED_SECONDS):
            farm.faults.append(f"partition {partition.number} went on over the copy below its disk: start {start}")
    stop(farm, partition.bridges)
    shutil.rmtree(partition.folder)
    os.rename(away, partition.folder)
    partition.begin()


def damage_beside(farm: Farm, dice: random.Random) -> None:
    """A file beside the journals is damaged. If the bridges refuse to start, it is put back."""
    with stopped(farm, dice) as partition:
        shard = dice.randrange(SHARDS)
        names = [partition.journal + ending for ending in (MARK, WORK, AUDIT)]
        names.append(journal_path(partition.journal, shard) + SEALS)
        path = dice.choice([name for name in names if os.path.exists(name)])
        kind = dice.choice(list(DAMAGES))
        DAMAGES[kind](path)
    is_down = partition.is_refused()
    if farm.is_loud:
        print(f"{os.path.basename(path)} of partition {partition.number}: {kind}; refused: {is_down}", flush=True)
    if is_down or path.endswith(WORK) or kind == named_pipe.__name__:
        # (where notes of work can't be read orders are refused; the log says of a pipe that it has to be moved away)
        stop(farm, partition.bridges)
        partition.put_file_back(path)
        partition.begin()
