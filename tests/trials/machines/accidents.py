"""Accidents with a partition's files on one machine, and the person who puts them right.

The person ends the machine's node, and something happens to the files of a partition. The node is started again. If it
stops the partition, the person gives the machine copies of another one's journals, or the right files back, by
docs/operate/nodes.md, "Files of a partition that aren't right". Meanwhile the other machines go on.
"""
import contextlib
import json
import os
import random
import shutil
import time
from collections.abc import Callable, Iterator

from issuer_host.facts.journals import POSITION, journal_path
from trials.bridges.accidents import (
    AUDIT,
    AWAY,
    DAMAGES,
    KEPT,
    MARK,
    SEALS,
    STARTS,
    WORK,
    copy_folder,
    grows,
    named_pipe,
    older,
)
from trials.bridges.farm import SHARDS
from trials.machines.brokers import comes
from trials.machines.machines import Machines, SERVING, WAITING, state_of

# So long a node may take until a partition is stopped, or does its part; and for how long it has to do that to be taken
# for one that goes on.
SETTLED_SECONDS, WATCHED_SECONDS = 180.0, 5.0
LOOK_SECONDS = 0.1
# So long a partition records before its disk goes away, and so long the disk is away.
SERVED_SECONDS, AWAY_SECONDS = 2.0, 6.0
STOPPED, ENDS = "stopped: ", ": the node ends"


class Accident:
    """A partition on a machine, the files of which something happens to."""

    def __init__(self, machines: Machines, dice: random.Random) -> None:
        self.machines, self.dice = machines, dice
        self.machine = machines.pick_serving(dice)
        self.node = machines.node_of(self.machine)
        self.number = dice.randrange(machines.partitions)
        self.journal = machines.journal_of(self.machine, self.number)
        self.folder = os.path.dirname(self.journal)
        # Where the part of the log begins that is looked at.
        self.begun = 0

    def __str__(self) -> str:
        return f"partition {self.number} of {self.machine.name}"

    def watch(self) -> None:
        """From here on the log is looked at."""
        self.begun = len(self.node.texts())

    def end(self) -> None:
        with self.machines.lock:
            self.node.end()

    def kill(self) -> None:
        with self.machines.lock:
            self.node.off()
            self.node.kill()

    def start(self) -> None:
        with self.machines.lock:
            self.watch()
            self.node.start()

    def stop_line(self) -> str:
        """Returns the line by which the node stopped the partition; nothing if it has not."""
        begin = f"node: partition {self.number}: error: {STOPPED}"
        for line in self.node.texts()[self.begun :].splitlines():
            if line.startswith(begin) and not line.endswith(ENDS):
                return line
        return ""

    def counted(self) -> int:
        """Returns how many records count at the machine's position; -1 if there is none to read."""
        # (an accident may have put a named pipe there)
        if not os.path.isfile(self.journal + POSITION):
            return -1
        try:
            with open(self.journal + POSITION, encoding="utf-8") as text:
                counts: list[int] = json.load(text)["counts"]
                return sum(counts)
        except (OSError, ValueError, KeyError, TypeError):
            return -1

    def is_stopped(self) -> bool:
        """Waits until the node has stopped the partition, or it does its part for a while. Returns whether it has.

        A node may find that files aren't right when it takes its next record, and no earlier.
        """
        until, done, before = time.monotonic() + SETTLED_SECONDS, 0.0, self.counted()
        while time.monotonic() < until and done < WATCHED_SECONDS:
            if self.stop_line():
                return True
            is_there = state_of(self.node.texts()[self.begun :], self.number) in (SERVING, WAITING)
            is_done = is_there and self.counted() > before
            done = done + LOOK_SECONDS if is_done else 0.0
            time.sleep(LOOK_SECONDS)
        if done < WATCHED_SECONDS and not self.stop_line():
            self.machines.faults.append(f"{self} is neither stopped nor does its part in {SETTLED_SECONDS:.0f} s")
        return bool(self.stop_line())

    def expect_stop(self, over: str) -> None:
        """The node has to stop the partition, with a sentence that says what to do."""
        if not comes(lambda: bool(self.stop_line()), SETTLED_SECONDS):
            self.machines.faults.append(f"{self} went on over {over}")
        self.excuse()

    def excuse(self) -> None:
        """The node was right to stop the partition."""
        line = self.stop_line()
        if line:
            self.node.excused.append(line)
        if self.machines.is_loud:
            print(line or f"{self} goes on", flush=True)

    def copy_of_another(self) -> None:
        """The person gives the machine copies of another one's journals, which go on meanwhile."""
        other = self.dice.choice([one for one in self.machines.network.machines if one != self.machine])
        self.end()
        self.machines.replace_journal(self.machine, other, self.number)
        self.start()

    def copy(self) -> None:
        """Copies the folder's files, as of journals that go on."""
        shutil.rmtree(self.folder + KEPT, ignore_errors=True)
        copy_folder(self.folder, self.folder + KEPT)


@contextlib.contextmanager
def ended(machines: Machines, dice: random.Random) -> Iterator[Accident]:
    """A machine's node is ended, and started again at the end."""
    found = Accident(machines, dice)
    found.end()
    try:
        yield found
    finally:
        found.start()


def restore_unsealed(machines: Machines, dice: random.Random) -> None:
    """An older journal is put in place without its seals: no host and no standby may start over it."""
    with ended(machines, dice) as accident:
        path = journal_path(accident.journal, dice.randrange(SHARDS))
        is_older = older(path, dice)
        with contextlib.suppress(FileNotFoundError):
            os.remove(path + SEALS)
    if is_older:
        accident.expect_stop(f"{path}, which was restored without seals")
        accident.copy_of_another()


def restore_with_position(machines: Machines, dice: random.Random) -> None:
    """All journals are older ones without seals, with the position of then: the run's mark alone is of now."""
    accident = Accident(machines, dice)
    accident.copy()
    time.sleep(SERVED_SECONDS)
    accident.end()
    is_older = False
    for shard in range(SHARDS):
        path = journal_path(accident.journal, shard)
        kept = os.path.join(accident.folder + KEPT, os.path.basename(path))
        is_older = is_older or os.path.getsize(kept) < os.path.getsize(path)
        shutil.copy2(kept, path)
        with contextlib.suppress(FileNotFoundError):
            os.remove(path + SEALS)
    position = accident.journal + POSITION
    shutil.copy2(os.path.join(accident.folder + KEPT, os.path.basename(position)), position)
    accident.start()
    if is_older:
        accident.expect_stop("journals and a position that were restored without seals")
        accident.copy_of_another()


def damage_beside(machines: Machines, dice: random.Random) -> None:
    """A file beside the journals is damaged. If the node stops the partition, it gets copies of another's journals."""
    with ended(machines, dice) as accident:
        names = [accident.journal + ending for ending in (MARK, WORK, AUDIT, POSITION)]
        names.append(journal_path(accident.journal, dice.randrange(SHARDS)) + SEALS)
        path = dice.choice([name for name in names if os.path.exists(name)])
        kind = dice.choice(list(DAMAGES))
        DAMAGES[kind](path)
    if machines.is_loud:
        print(f"{os.path.basename(path)} of {accident}: {kind}", flush=True)
    if accident.is_stopped():
        accident.excuse()
        accident.copy_of_another()
    elif kind == named_pipe.__name__:
        # (the log says that it has to be moved away)
        accident.end()
        os.remove(path)
        accident.start()


def pull_disk(machines: Machines, dice: random.Random) -> None:
    """A partition's disk goes away over an older copy of its files; the node may be killed at that moment.

    Nor may it go on if a person starts it again without a look.
    """
    accident = Accident(machines, dice)
    accident.copy()
    if not grows(accident.folder, accident.folder + KEPT):
        machines.faults.append(f"{accident} took nothing before its disk went away")
        return
    is_killed = dice.random() < 0.5
    accident.watch()
    if is_killed:
        accident.kill()
    away = accident.folder + AWAY
    os.rename(accident.folder, away)
    os.rename(accident.folder + KEPT, accident.folder)
    if is_killed:
        accident.start()
    for start in range(1 + STARTS):
        if start:
            accident.end()
            accident.start()
        accident.expect_stop(f"the copy below its disk: start {start}")
    accident.end()
    shutil.rmtree(accident.folder)
    os.rename(away, accident.folder)
    accident.start()


def lose_disk(machines: Machines, dice: random.Random) -> None:
    """A partition's disk is away for a while, and nothing is in its place; the node may be killed meanwhile."""
    accident = Accident(machines, dice)
    accident.watch()
    is_killed = dice.random() < 0.5
    if is_killed:
        accident.kill()
    away = accident.folder + AWAY
    os.rename(accident.folder, away)
    if is_killed:
        accident.start()
    time.sleep(AWAY_SECONDS)
    os.rename(away, accident.folder)
    if accident.is_stopped():
        accident.excuse()
        accident.end()
        accident.start()


ACCIDENTS: "dict[str, Callable[[Machines, random.Random], None]]" = {
    "unsealed": restore_unsealed,
    "older": restore_with_position,
    "beside": damage_beside,
    "pulled": pull_disk,
    "no disk": lose_disk,
}
