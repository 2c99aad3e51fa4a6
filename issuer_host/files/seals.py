"""Seals: a running hash beside each journal, a line for each record, by which a start finds a journal that was changed.

A seal is the beginning of SHA-256 of the seal before and the record's line. The file `JOURNAL.seals` has them in the
records' order. Bridge, gateway or follower write a seal once its record is durable, and a careful start those that are
missing; the program never reads or writes them. Who can write the seals too can seal anything: they have no key.
"""
import contextlib
import fcntl
import hashlib
import io
import itertools
import os
import re
from collections.abc import Iterable, Iterator, Sequence
from typing import IO, NamedTuple, Optional

from issuer_host.facts.journals import MAX_RECORD_LINE, VERSION_LINE
from issuer_host.facts.refusal import Refusal
from issuer_host.files.regular_files import open_regular
from issuer_host.files.whole_writes import write_whole

ENDING = ".seals"
DIGITS = 32
LINE = DIGITS + 1
FIRST = b"0" * DIGITS
SEAL = re.compile(rb"[0-9a-f]{32}\n")
PIECE = 1 << 20
# So many seals are appended at a time.
MOST_APPENDED = 1 << 14
# What a crash leaves of a line that was being written.
TORN = re.compile(rb"v2?|[dqs]( [0-9a-fA-F-]*)*")
# The word of issuer-run that takes the journals as they are.
ACCEPTS = "--accept-journals"


def seals_path(journal: str) -> str:
    return journal + ENDING


def seal_of(before: bytes, line: bytes) -> bytes:
    return hashlib.sha256(before + line).hexdigest()[:DIGITS].encode()


def seals_of(before: bytes, lines: Iterable[bytes]) -> list[bytes]:
    """Returns the seals of records' lines, after a seal."""
    found = []
    for line in lines:
        before = seal_of(before, line)
        found.append(before)
    return found


def count_seals(journal: str) -> int:
    """Returns how many seals the file beside a journal has room for."""
    try:
        return os.path.getsize(seals_path(journal)) // LINE
    except FileNotFoundError:
        return 0


class Seals:
    """A journal's file of seals. Several processes may append to it, each under its lock."""

    def __init__(self, journal: str) -> None:
        self.path = seals_path(journal)
        self.file = open_regular(self.path, os.O_RDWR | os.O_CREAT)
        # How many there are, as of the last look under the lock.
        self.count = 0

    def __enter__(self) -> "Seals":
        return self

    def __exit__(self, *_: object) -> None:
        os.close(self.file)

    @contextlib.contextmanager
    def locked(self) -> Iterator[None]:
        """Keeps others from appending for a moment, and counts what is there."""
        fcntl.flock(self.file, fcntl.LOCK_EX)
        try:
            size = os.fstat(self.file).st_size
            self.count = self.count_whole(size // LINE)
            if size != self.count * LINE:
                # (a crash tore the last line, or a loss of power left zeros)
                os.ftruncate(self.file, self.count * LINE)
            yield
        finally:
            fcntl.flock(self.file, fcntl.LOCK_UN)

    def count_whole(self, lines: int) -> int:
        """Returns how many of the first lines there are up to the last one that is a seal."""
        while lines and not SEAL.fullmatch(os.pread(self.file, LINE, (lines - 1) * LINE)):
            lines -= 1
        return lines

    def last(self) -> bytes:
        return os.pread(self.file, DIGITS, (self.count - 1) * LINE) if self.count else FIRST

    def each(self) -> Iterator[Optional[bytes]]:
        """Returns the seals, in their order; None for a line that is none."""
        at = 0
        while at < self.count:
            piece = os.pread(self.file, min(self.count - at, MOST_APPENDED) * LINE, at * LINE)
            for first in range(0, len(piece), LINE):
                line = piece[first : first + LINE]
                yield line[:-1] if SEAL.fullmatch(line) else None
            at += len(piece) // LINE

    def append(self, seals: Sequence[bytes]) -> None:
        """Appends seals durably, or leaves what is there. The lock is held."""
        text = b"".join(seal + b"\n" for seal in seals)
        try:
            write_whole(self.file, text, self.count * LINE)
            os.fsync(self.file)
        except OSError:
            os.ftruncate(self.file, self.count * LINE)
            raise
        self.count += len(seals)

    def forget_after(self, count: int) -> None:
        """Leaves the first seals alone, durably. The lock is held."""
        os.ftruncate(self.file, count * LINE)
        os.fsync(self.file)
        self.count = count


class CheckedJournal(NamedTuple):
    """What a check of a journal found: its records, and the bytes of a torn last line."""

    records: int
    torn: int


class Left(NamedTuple):
    """What a run left of a journal, or found when it began."""

    # The bytes of its whole lines.
    size: int
    # None if an older release wrote the mark.
    seals: Optional[int]
    # Whether a run may have appended since.
    may_have_grown: bool


# What there was of a journal before its first record.
NOTHING = Left(0, 0, True)


def check_sealed(journal: str, before: Optional[Left] = None, accepts: bool = False) -> CheckedJournal:
    """Refuses a journal that isn't what its seals and the mark say, and seals the records that have no seal yet.

    `before` is what the last run left or found, if that is known. A journal that is accepted as it is loses the seals
    that it doesn't meet.
    """
    with open(open_regular(journal, os.O_RDONLY), "rb") as opened, Seals(journal) as seals, seals.locked():
        torn = torn_of(opened)
        size = os.fstat(opened.fileno()).st_size
        if not accepts:
            check_torn(journal, torn)
        reading = Reading(journal, opened, accepts)
        has_records = reading.line() == VERSION_LINE.encode()
        if has_records:
            reading = check_same(reading, opened, seals)
        elif not reading.at and seals.count:
            check_accepted(reading, of_other(journal, 0, seals.count, is_missing=True))
            seals.forget_after(0)
        if not accepts:
            check_shorter(journal, size, before)
            check_fewer(journal, size, seals, before)
        if has_records:
            check_grown(reading, before, seals)
            append_missing(reading, seals)
        return CheckedJournal(seals.count, len(torn))


def check_shorter(journal: str, size: int, before: Optional[Left]) -> None:
    """Refuses a journal that is shorter than the last run left it, or found it, with records."""
    if before is not None and size < before.size and before.size > len(VERSION_LINE):
        raise refused(
            f"{journal} has {size} bytes, and had {before.size} when the last run {word_of(before)}: records are"
            " missing at its end, and would be decided again. Restore the journal from a copy that has them"
        )


def check_fewer(journal: str, size: int, seals: Seals, before: Optional[Left]) -> None:
    """Refuses a journal with records whose seals are missing: it could be an older one, or a changed one.

    Journals that began without records have no seals until a start or who runs the host writes them.
    """
    if size <= len(VERSION_LINE):
        return
    if before is None or before.seals is None:
        is_new = before is not None and before.size <= len(VERSION_LINE)
        is_missing, had = not seals.count and not is_new, "and the journal has records"
    else:
        is_missing = seals.count < before.seals
        had = f"and had {before.seals} seals when the last run {word_of(before)}"
    if is_missing:
        raise refused(
            f"{seals.path} has {seals.count} seals, {had}: an older or changed journal would be taken for the right"
            " one. Restore the seals that belong to the journal"
        )


def word_of(before: Left) -> str:
    return "began" if before.may_have_grown else "ended"


def refused(why: str) -> Refusal:
    return Refusal(f"{why}. If it is right as it is, add {ACCEPTS}, once")


def copy_seals(source: str, target: str, count: int) -> None:
    """Gives the copy of a journal's first records their seals, as far as there are, and refuses what they don't fit."""
    with Seals(source) as seals, seals.locked():
        found = list(itertools.takewhile(bool, itertools.islice(seals.each(), count)))
    with Seals(target) as seals, seals.locked():
        seals.append([seal for seal in found if seal is not None])
    check_sealed(target, NOTHING)


def torn_of(opened: IO[bytes]) -> bytes:
    """Returns what follows the last newline of a journal; of more bytes than a record's line has, so many."""
    size = os.fstat(opened.fileno()).st_size
    end = os.pread(opened.fileno(), MAX_RECORD_LINE, max(size - MAX_RECORD_LINE, 0))
    return end[end.rfind(b"\n") + 1 :]


def check_torn(journal: str, torn: bytes) -> None:
    """Refuses bytes after the last newline that no crash leaves: the program would truncate them."""
    if not torn or len(torn) < MAX_RECORD_LINE and TORN.fullmatch(torn):
        return
    count = f"{len(torn)} bytes or more" if len(torn) == MAX_RECORD_LINE else f"{len(torn)} bytes"
    raise Refusal(
        f"{count} follow the last newline of {journal}, and are no beginning of a record: the program would truncate"
        f" them. Restore it from a copy, or look at them, and add {ACCEPTS}, once, to have them truncated"
    )


class Reading:
    """A journal that is read record by record, and its running hash."""

    def __init__(self, journal: str, opened: IO[bytes], accepts: bool) -> None:
        self.journal = journal
        self.opened = opened
        self.accepts = accepts
        self.lines = lines_of(opened)
        self.seal = FIRST
        # Where the last whole line ends.
        self.at = 0

    def line(self) -> Optional[bytes]:
        """Returns the next whole line; None at the end."""
        found = next(self.lines, None)
        self.at += len(found or b"")
        return found

    def next_seal(self) -> Optional[bytes]:
        line = self.line()
        if line is None:
            return None
        self.seal = seal_of(self.seal, line)
        return self.seal

    def pass_over(self, count: int) -> bool:
        """Goes on by so many records, if there are as many. (This is what a start spends its time on.)"""
        sha256 = hashlib.sha256
        seal = self.seal
        found = size = 0
        for line in itertools.islice(self.lines, count):
            seal = sha256(seal + line).hexdigest()[:DIGITS].encode()
            size += len(line)
            found += 1
        self.seal = seal
        self.at += size
        return found == count


def lines_of(opened: IO[bytes]) -> Iterator[bytes]:
    """Returns the whole lines of a file. It ends where one is longer than a piece: the program refuses that one."""
    rest = b""
    while piece := opened.read(PIECE):
        *whole, rest = io.BytesIO(rest + piece)
        if rest.endswith(b"\n"):
            whole.append(rest)
            rest = b""
        yield from whole
        if len(rest) > PIECE:
            return


def check_same(reading: Reading, opened: IO[bytes], seals: Seals) -> Reading:
    """Refuses a journal whose records aren't those that were sealed. Returns where to go on.

    Each seal stands for all records before it. So one comparison does, and the first record that differs is searched
    for only if there is one.
    """
    if reading.pass_over(seals.count) and reading.seal == seals.last():
        return reading
    opened.seek(0)
    again = Reading(reading.journal, opened, reading.accepts)
    again.line()
    for index, then in enumerate(seals.each()):
        now = again.next_seal()
        if now is None or then is not None and now != then:
            check_accepted(again, of_other(again.journal, index, seals.count, now is None))
            seals.forget_after(index)
            if now is not None:
                seals.append([now])
            break
    return again


def of_other(journal: str, index: int, sealed: int, is_missing: bool) -> str:
    """Says that a record is missing, or isn't the one that was sealed."""
    if is_missing:
        return (
            f"{journal} has {index} records, and {sealed} were sealed: the record with the index {index} is missing,"
            " and would be decided again. Restore the journal from a copy that has it"
        )
    return (
        f"the record with the index {index} of {journal} isn't the one that was sealed: line {index + 2} was changed,"
        " or comes from another history. Restore the journal from a copy"
    )


def check_accepted(reading: Reading, why: str) -> None:
    if not reading.accepts:
        raise refused(why)


def check_grown(reading: Reading, before: Optional[Left], seals: Seals) -> None:
    """Refuses records that came after the last run had ended. Those that it wrote and nobody sealed are sealed."""
    if before is None or before.may_have_grown:
        return
    append_missing(reading, seals, before.size)
    grown = reading.next_seal()
    if grown is None:
        return
    check_accepted(
        reading,
        f"{reading.journal} has grown since its last run ended: the record with the index {seals.count} is the first"
        " that no run wrote. Find out who appended to it, or restore it from a copy",
    )
    seals.append([grown])


def append_missing(reading: Reading, seals: Seals, end: Optional[int] = None) -> None:
    """Seals the records that have no seal yet; those alone that begin before a place, if one is given.

    A record that a killed run wrote may not be durable yet, and its seal would outlive it: so the journal is synced.
    """
    missing: list[bytes] = []
    is_synced = False
    while end is None or reading.at < end:
        seal = reading.next_seal()
        if seal is None:
            break
        if not is_synced:
            os.fdatasync(reading.opened.fileno())
            is_synced = True
        missing.append(seal)
        if len(missing) == MOST_APPENDED:
            seals.append(missing)
            missing = []
    if missing:
        seals.append(missing)
