"""A machine's position in a partition's stream, in a file beside the journals.

`JOURNAL.position` says up to which message the journals have what counts: the message's offset and digest, the last
barrier that counts there, how many records of each shard count, and how many bytes of its journal these are. It says as
well which records beyond those may be of a host of this machine (`own_records`). The line has a sum of itself. It may
be behind the journals, and never before them. Before the first message the digest is that of the journals that the
partition begins with: all machines begin with the same ones.
"""
import functools
import hashlib
import os
import queue
import threading
from collections.abc import Callable, Iterable
from typing import Any, NamedTuple, Optional

from issuer_host.facts.faults import refuse_if_lasting
from issuer_host.facts.journals import POSITION, VERSION_LINE, journal_path, old_journal_path, shards_of_files
from issuer_host.facts.refusal import Refusal
from issuer_host.files.placement import put_in_place
from issuer_host.files.regular_files import open_regular
from issuer_host.files.seals import copy_seals
from issuer_host.files.summed_lines import said_of, summed
from issuer_host.host.event_loop import Loop
from issuer_host.replication.messages import Barrier, LOGS, Mark, NAME, NO_BARRIER, NOTES, text_of
from issuer_host.replication.notes import read_notes, write_notes

# The offset before the first message.
BEFORE = -1
DIGITS = 32
BASE = "base."
# The member that files of an older release lack.
OWN = "own"
PIECE = 1 << 20


class Position(NamedTuple):
    """A place in a stream, and what of the journals counts there."""

    offset: int
    digest: str
    barrier: Barrier
    counts: tuple[int, ...]
    sizes: tuple[int, ...]
    # Of each shard: the records from this index on were read in the stream. None while a host may record.
    own: Optional[tuple[int, ...]] = None


def first_text(digest: str) -> str:
    """Returns the message that the stream of a partition begins with, by the digest of its first journals."""
    return text_of(Mark(BASE + digest))


def digest_of(body: bytes) -> str:
    return hashlib.sha256(body).hexdigest()[:DIGITS]


def position_path(journal: str) -> str:
    return journal + POSITION


def read(journal: str, machine: str = "") -> Position:
    """Returns a machine's position beside journals. Refuses one that is missing, or that isn't behind the journals."""
    path = position_path(journal)
    try:
        with open(open_regular(path, os.O_RDONLY), encoding="utf-8") as text:
            found = position_of(said_of(text.read().rstrip("\n")), machine)
    except FileNotFoundError as fault:
        raise Refusal(
            f"there is no {path}: begin the partition by deploy/node --begin, once, on all machines with the same"
            " journals, or copy another machine's journals by deploy/node --copy"
        ) from fault
    except OSError as fault:
        refuse_if_lasting(fault, f"{path}: {fault.strerror}")
        raise
    except (ValueError, KeyError, TypeError) as fault:
        raise Refusal(
            f"{path} is no position, or was changed: copy another machine's journals by deploy/node --copy"
        ) from fault
    check(journal, found)
    return found


def position_of(said: "dict[str, Any]", machine: str) -> Position:
    """Returns the position that a machine's file says. Another one is a ValueError, a KeyError or a TypeError.

    A file of an older release doesn't say which records may be the machine's own: any if its barrier counts, else none.
    """
    if {*said, OWN} != set(Position._fields):
        raise ValueError("another member")
    barrier = Barrier(*said["barrier"])
    counts, sizes = tuple(said["counts"]), tuple(said["sizes"])
    own = said.get(OWN, None if barrier.machine == machine else counts)
    own = None if own is None else tuple(own)
    numbers = (said["offset"], barrier.number, *counts, *sizes, *(own or ()))
    if not all(type(one) is int and one >= BEFORE for one in numbers):
        raise ValueError("a number")
    if len(counts) != LOGS or len(sizes) != LOGS or own is not None and len(own) != LOGS:
        raise ValueError("a length")
    if barrier != NO_BARRIER and not NAME.fullmatch(barrier.name):
        raise ValueError("a name")
    return Position(said["offset"], str(said["digest"]), barrier, counts, sizes, own)


def check(journal: str, position: Position) -> None:
    """Refuses a position that counts other records than the journals have up to its bytes."""
    for shard, (count, size) in enumerate(zip(position.counts[:NOTES], position.sizes)):
        path = journal_path(journal, shard)
        if (count or size > len(VERSION_LINE)) and records_up_to(path, size) != count:
            raise Refusal(
                f"{path} hasn't the {count} records that {position_path(journal)} counts up to {size} bytes: copy"
                " another machine's journals by deploy/node --copy"
            )


def records_up_to(path: str, size: int) -> Optional[int]:
    """Returns how many records end within the first bytes of a journal; None if no line ends just there."""
    lines, last = 0, b""
    try:
        with open(open_regular(path, os.O_RDONLY), "rb") as opened:
            while size and (piece := opened.read(min(size, PIECE))):
                lines += piece.count(b"\n")
                last = piece[-1:]
                size -= len(piece)
    except FileNotFoundError:
        return None
    return None if size or last != b"\n" else lines - 1


def write(journal: str, position: Position) -> None:
    """Puts a position in place of the one before, durably."""
    put_in_place(position_path(journal), summed(position._asdict()) + "\n")


def keep(journal: str, position: Position, grown: Iterable[str]) -> None:
    """Writes a position, once what counts there of the files that have grown is durable."""
    for path in grown:
        with open(path, "rb") as opened:
            os.fdatasync(opened.fileno())
    write(journal, position)


class Keeper:
    """Writes positions in a thread of its own: a disk that is slow holds no partition up."""

    def __init__(self, loop: Loop) -> None:
        self.loop = loop
        self.tasks: "queue.SimpleQueue[tuple[Callable[[], None], Callable[[Optional[OSError]], object]]]" = (
            queue.SimpleQueue()
        )
        threading.Thread(target=self.work, daemon=True, name="positions").start()

    def add(self, task: Callable[[], None], then: Callable[[Optional[OSError]], object]) -> None:
        """Does a task, and calls back with what it failed by, or None."""
        self.tasks.put((task, then))

    def work(self) -> None:
        while True:
            task, then = self.tasks.get()
            fault: Optional[OSError] = None
            try:
                task()
            except OSError as failed:
                fault = failed
            self.loop.add_callback_threadsafe(functools.partial(then, fault))


def begin(journal: str) -> Position:
    """Creates the position before a stream's first message, of journals that no host writes."""
    if os.path.exists(position_path(journal)):
        raise Refusal(f"{position_path(journal)} exists: the partition has begun here")
    refuse_uncopied(journal)
    counts, sizes = [0] * LOGS, [len(VERSION_LINE)] * NOTES + [0]
    total = hashlib.sha256()
    for shard in shards_of_files(journal).journals:
        counts[shard], sizes[shard], digest = measured(journal_path(journal, shard))
        total.update(f"{shard} {counts[shard]} {digest}\n".encode() if counts[shard] else b"")
    first, notes = read_notes(journal)
    counts[NOTES] = first + len(notes)
    total.update("".join(f"{note}\n" for note in notes).encode())
    found = Position(BEFORE, total.hexdigest()[:DIGITS], NO_BARRIER, tuple(counts), tuple(sizes), tuple(counts))
    write(journal, found)
    return found


def refuse_uncopied(journal: str) -> None:
    """Refuses old journals, of version 1, whose records aren't copied: a start would append them later."""
    for shard in shards_of_files(journal).olds:
        with open(old_journal_path(journal, shard), "rb") as opened:
            old = opened.read()
        path = journal_path(journal, shard)
        size = os.path.getsize(path) if os.path.exists(path) else 0
        if old and size < len(VERSION_LINE) + old.rfind(b"\n") + 1:
            raise Refusal(
                f"{path} hasn't the records of {old_journal_path(journal, shard)}: start its host once before"
            )


def measured(path: str) -> tuple[int, int, str]:
    """Returns how many records a journal has, its bytes, and their digest. A torn last line is refused."""
    total = hashlib.sha256()
    lines, last = -1, b"\n"
    with open(path, "rb") as opened:
        while piece := opened.read(PIECE):
            total.update(piece)
            lines += piece.count(b"\n")
            last = piece[-1:]
        if last != b"\n":
            raise Refusal(f"{path} ends within a line: start its host once, or show it, and begin after that")
        return max(lines, 0), max(opened.tell(), len(VERSION_LINE)), total.hexdigest()


def copy(source: str, target: str) -> Position:
    """Copies the position of other journals, and as much of these as counts there.

    The position comes first: what counts there stays in journals that a node goes on writing. No host has made records
    beyond it in the copy.
    """
    if shards_of_files(target).journals or os.path.exists(position_path(target)):
        raise Refusal(f"there are journals {target}, or a position: move them away")
    found = read(source)
    found = found._replace(own=found.counts)
    for shard in shards_of_files(source).journals:
        copy_bytes(journal_path(source, shard), journal_path(target, shard), found.sizes[shard])
    check(target, found)
    for shard in shards_of_files(target).journals:
        copy_seals(journal_path(source, shard), journal_path(target, shard), found.counts[shard])
    first, notes = read_notes(source)
    write_notes(target, first, notes[: found.counts[NOTES] - first])
    write(target, found)
    return found


def copy_bytes(source: str, target: str, size: int) -> None:
    """Copies the first bytes of a file to a new one, durably."""
    flags = os.O_WRONLY | os.O_CREAT | os.O_EXCL | os.O_CLOEXEC
    with open(source, "rb") as opened, open(os.open(target, flags, 0o600), "wb") as to:
        while size and (piece := opened.read(min(size, PIECE))):
            to.write(piece)
            size -= len(piece)
        to.flush()
        os.fsync(to.fileno())
