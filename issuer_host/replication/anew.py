"""Which machine's journals a stream is begun anew from, and how a machine takes them.

A stream that lost its end has less than the journals, which are synced. Of several machines' journals those are right
whose machine served last: the last barrier that counts names it. Others may be longer, by records that nobody was
answered; and one that follows may know that barrier and lack the last records. But what another machine had read in the
stream is in those journals: else a machine went on with a stream that had lost its end, and a person decides.
"""
import contextlib
import glob
import os
import shutil
from collections.abc import Iterator, Mapping
from typing import NamedTuple

from issuer_host.facts.journals import POSITION, VERSION_LINE, journal_path, shards_of_files
from issuer_host.facts.refusal import Refusal
from issuer_host.replication import positions
from issuer_host.files.placement import move_in_place, put_in_place
from issuer_host.replication.messages import Barrier, NO_BARRIER
from issuer_host.replication.node_file import PartitionSettings
from issuer_host.replication.journal_lock import LOCK, locked
from issuer_host.replication.positions import PIECE, Position
from issuer_host.replication.standby_run import TransientFault

# What the old files of a partition are called beside it.
OLD = "before-anew"
# What says from which barrier a partition was begun anew: it isn't done twice by the same copies.
ANEW = ".anew"
# What isn't taken of another machine's files: its position, and what is of that machine alone.
OWN_ENDINGS = (POSITION, LOCK, ANEW, ".run", ".audit")


class ServedLast(NamedTuple):
    """The machine that served a partition last, by the greatest barrier of those that were found."""

    machine: str
    barrier: Barrier
    # The number of the last barrier at each machine.
    barriers: Mapping[str, int]

    def why(self) -> str:
        found = ", ".join(f"{machine} has {number}" for machine, number in sorted(self.barriers.items()))
        return f"{self.machine} served last: the last barrier is {self.barrier.number} ({found}), and names it"


def served_last(number: int, found: Mapping[str, Position]) -> ServedLast:
    """Returns which machine's journals are taken. Refuses where its journals aren't among those that were found."""
    barriers = {machine: position.barrier for machine, position in found.items()}
    last = max(barriers.values(), key=lambda barrier: barrier.number, default=NO_BARRIER)
    if last == NO_BARRIER:
        raise Refusal(f"partition {number}: no position has a barrier, so nobody was answered: run node --begin")
    same = {barrier for barrier in barriers.values() if barrier.number == last.number}
    if len(same) > 1:
        named = sorted(barrier.machine for barrier in same)
        raise Refusal(
            f"partition {number}: there are two barriers {last.number}, of {' and '.join(named)}: one was written after"
            " the stream lost its end, and both may have answered. Decide by the switch's log whose answers stand, and"
            " leave the other machine's copies out"
        )
    if last.machine not in found:
        raise Refusal(
            f"partition {number}: {last.machine} served last (barrier {last.number}), and its journals aren't here:"
            f" copy them, and name them as {last.machine}=PATTERN"
        )
    return ServedLast(last.machine, last, {machine: one.number for machine, one in barriers.items()})


def begin_anew(one: PartitionSettings, machine: str, copies: Mapping[str, str]) -> str:
    """Begins a partition of a machine anew, and returns why so. What it had stays in a folder beside."""
    others = {name: text.replace("{}", str(one.number)) for name, text in copies.items()}
    journals = {machine: one.journal, **others}
    found = {name: positions.read(path, name) for name, path in journals.items() if os.path.exists(path + POSITION)}
    last = served_last(one.number, found)
    if text_of(one.journal + ANEW) == last.barrier.name:
        return f"partition {one.number} was begun anew from {last.machine}'s journals before, and is left as it is"
    for name, position in found.items():
        refuse_others(one.number, last.machine, journals[last.machine], name, journals[name], position)
    with held(one.journal):
        if last.machine != machine:
            move_away(one.journal)
            take(journals[last.machine], one.journal)
            forget(one.last_run)
        forget(one.journal + POSITION)
        begun = positions.begin(one.journal)
        put_in_place(one.journal + ANEW, last.barrier.name)
    return f"partition {one.number}: {last.why()}. It begins with {sum(begun.counts)} records, {begun.digest}"


def refuse_others(number: int, last: str, chosen: str, name: str, journal: str, position: Position) -> None:
    """Refuses the chosen journals if they don't begin with what another machine had read in the stream."""
    for shard in shards_of_files(journal).journals:
        path = journal_path(journal, shard)
        size = size_read(path, shard, position)
        if size > len(VERSION_LINE) and not have_same(path, journal_path(chosen, shard), size):
            raise Refusal(
                f"partition {number}: {name} had read records of shard {shard} in the stream that {last}, which served"
                f" last, hasn't: {last} went on after the stream lost its end, and others may have answered by those."
                " Decide by the switch's log whose answers stand, and leave the copies of the machines out that have"
                " others; on such a machine, move its own journals and their position away before"
            )


def size_read(path: str, shard: int, position: Position) -> int:
    """Returns the bytes of a journal that its machine read in the stream: none beyond those may be its host's."""
    size = position.sizes[shard]
    if position.own is None:
        return size
    with open(path, "rb") as opened:
        opened.seek(size)
        beyond = opened.read()
    records = position.counts[shard] + beyond.count(b"\n")
    return size + beyond.rfind(b"\n") + 1 if records > position.own[shard] else size


def have_same(path: str, other: str, size: int) -> bool:
    """Whether two files have the same first bytes."""
    if not os.path.exists(other):
        return False
    with open(path, "rb") as one, open(other, "rb") as two:
        while size and (piece := one.read(min(size, PIECE))):
            if two.read(len(piece)) != piece:
                return False
            size -= len(piece)
    return not size


def text_of(path: str) -> str:
    try:
        with open(path, encoding="utf-8") as text:
            return text.read()
    except FileNotFoundError:
        return ""


def forget(path: str) -> None:
    if path:
        with contextlib.suppress(FileNotFoundError):
            os.remove(path)


@contextlib.contextmanager
def held(journal: str) -> Iterator[None]:
    """No node may have the journals meanwhile."""
    try:
        file = locked(journal)
    except TransientFault as fault:
        raise Refusal(f"{fault}: end the nodes of all machines before") from fault
    try:
        yield
    finally:
        os.close(file)


def move_away(journal: str) -> None:
    """Moves a partition's files into a folder of their own. None is removed."""
    folder = os.path.dirname(journal)
    number = len(glob.glob(os.path.join(folder, f"{OLD}-*"))) + 1
    to = os.path.join(folder, f"{OLD}-{number}")
    os.mkdir(to, 0o700)
    for path in files_of(journal):
        if not path.endswith(LOCK):
            move_in_place(path, os.path.join(to, os.path.basename(path)))


def take(source: str, journal: str) -> None:
    """Copies another machine's journals whole: those have records beyond their position that were answered."""
    for path in files_of(source):
        if not path.endswith(OWN_ENDINGS):
            shutil.copyfile(path, journal + path[len(source) :])
            os.chmod(journal + path[len(source) :], 0o600)


def files_of(journal: str) -> list[str]:
    return sorted(glob.glob(glob.escape(journal) + ".*"))
