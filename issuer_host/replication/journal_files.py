"""The journals of a machine as the rule sees them: what counts of them, and what is beyond.

A run of `issuer standby` takes the records that count and aren't there (`standby_run`). A truncated journal's seals are
truncated with it.
"""
import collections
import os
from collections.abc import Sequence
from typing import Optional, Union

from issuer_host.facts.journals import MAX_RECORD_LINE, VERSION_LINE, journal_path
from issuer_host.facts.refusal import Refusal
from issuer_host.files.run_mark import RunMark, lock_mark
from issuer_host.files.seals import Left, Seals, count_seals
from issuer_host.replication.messages import NOTES, Record
from issuer_host.replication.notes import Notes, was_changed
from issuer_host.replication.own_records import OwnRecords
from issuer_host.replication.positions import Position
from issuer_host.replication.record_origins import NOWHERE, RefusedRecord
from issuer_host.replication.rule_events import MOST_BEYOND
from issuer_host.replication.standby_run import StandbyRun, TransientFault
from issuer_host.start.history_checks import is_locked

PIECE = 1 << 16
LOOK = "the machines' journals aren't of one history; copy another machine's by deploy/node --copy"


class Shard:
    """A shard's journal: how many records of it count, and those beyond them that were read."""

    def __init__(self, journal: str, number: int, count: int, size: int) -> None:
        self.path = journal_path(journal, number)
        self.number = number
        self.count = count
        # The bytes of what counts.
        self.size = size
        self.beyond: collections.deque[str] = collections.deque()
        # What comes after those, and is told to no rule before it comes from the stream too.
        self.later: collections.deque[str] = collections.deque()
        # Where what was read ends.
        self.at = size

    def length(self) -> int:
        return self.count + len(self.beyond)

    def total(self) -> int:
        return self.length() + len(self.later)

    def read_on(self, end: Optional[int] = None) -> None:
        """Reads the next records, so that there are so many, or to the journal's end."""
        # (a file object would take as many calls of the system again)
        opened = os.open(self.path, os.O_RDONLY | os.O_CLOEXEC)
        try:
            while end is None or self.length() < end:
                lines = os.pread(opened, PIECE, self.at).split(b"\n")[:-1]
                taken = lines if end is None else lines[: end - self.length()]
                if not taken:
                    break
                self.beyond.extend(line.decode("latin-1") for line in taken)
                self.at += sum(len(line) + 1 for line in taken)
        finally:
            os.close(opened)

    def text(self, place: int) -> str:
        return self.beyond[place - self.count]

    def put(self, text: str) -> None:
        """A run of standby appends this record: it isn't read from the file."""
        self.beyond.append(text)
        self.at += len(text) + 1

    def count_next(self) -> None:
        """The next record counts."""
        self.size += len(self.beyond.popleft()) + 1
        self.count += 1

    def forget_beyond(self, length: int) -> int:
        """Forgets what was read beyond so many records. Returns where they end."""
        while self.length() > length:
            self.at -= len(self.beyond.pop()) + 1
        return self.at

    def bytes_in_file(self) -> int:
        return os.path.getsize(self.path)


class JournalFiles:
    """`rule_turns.RuleJournals` over files."""

    def __init__(
        self, journal: str, shards: int, position: Position, standby: StandbyRun, room: int = MOST_BEYOND
    ) -> None:
        self.journal, self.room = journal, room
        counted = zip(range(shards), position.counts, position.sizes)
        self.shards = [Shard(journal, number, count, size) for number, count, size in counted]
        self.notes = Notes(journal, position.counts[NOTES])
        self.logs: "list[Union[Shard, Notes]]" = [*self.shards, self.notes]
        self.own = OwnRecords(position.own)
        self.standby = standby
        # The message of the stream that is being read.
        self.origin = NOWHERE

    def open(self) -> None:
        """Reads what there is beyond what counts. No run has the journals open.

        A rule has room for so many records of each shard. Those past them come again from the stream. If they may be of
        a host of this machine they are truncated, since they may count nowhere; else they are kept for that.
        """
        self.locked_mark().close()
        self.read_all()
        self.notes.open()
        self.own.opened(self.logs)
        for log in self.logs:
            if len(log.beyond) > self.room and self.own.has_all_of(log):
                self.truncate(log.number, log.count + self.room)
            while len(log.beyond) > self.room:
                log.later.appendleft(log.beyond.pop())

    def locked_mark(self) -> RunMark:
        """Locks the mark of the journals, which says that no run has them open."""
        mark = lock_mark(self.journal)
        is_free = False
        try:
            is_free = mark is not None and not any(is_locked(shard.path) for shard in self.shards)
        finally:
            if mark is not None and not is_free:
                mark.close()
        if mark is None or not is_free:
            raise TransientFault(f"another program has the journals {self.journal} open")
        return mark

    def read_all(self) -> None:
        """Reads all journals to their ends, while no line is put to a host."""
        for shard in self.shards:
            shard.read_on()

    def recorded(self, ends: "dict[int, int]") -> None:
        """Reads the records that a host made: by its answers so many of each shard are durable."""
        for shard, end in ends.items():
            self.shards[shard].read_on(end)

    # What the rule asks

    def log(self, shard: int) -> "Union[Shard, Notes]":
        return self.notes if shard == NOTES else self.shards[shard]

    def length(self, shard: int) -> int:
        return self.log(shard).length() if shard == NOTES or shard < len(self.shards) else 0

    def record(self, shard: int, place: int) -> Record:
        return Record(shard, place, self.log(shard).text(place))

    def count_to(self, shard: int, number: int) -> None:
        """So many records of a shard count."""
        log = self.log(shard)
        if not log.count <= number <= log.length():
            raise TransientFault(f"{number} records of {log.path} count, which has {log.length()}")
        while log.count < number:
            log.count_next()

    def put(self, record: Record) -> None:
        if record.shard != NOTES and (record.shard >= len(self.shards) or len(record.text) >= MAX_RECORD_LINE):
            raise RefusedRecord(f"shard {record.shard} has no journal here that could have it")
        log = self.log(record.shard)
        if log.later:
            if log.later[0] != record.text:
                self.truncate(record.shard, record.place)
            else:
                log.beyond.append(log.later.popleft())
                return
        if record.shard == NOTES:
            self.put_note(record)
            return
        self.standby.put(record, self.origin)
        self.shards[record.shard].put(record.text)

    def put_note(self, note: Record) -> None:
        """Appends a note. (One with another line's sum would be taken for one that the disk changed.)"""
        if was_changed(note.text):
            raise RefusedRecord(f"note {note.place} has a sum that isn't its own")
        self.notes.append(note.text)

    def truncate(self, shard: int, length: int) -> None:
        if length < self.log(shard).count:
            raise Refusal(f"record {length} of {self.log(shard).path} counted before, and another counts now: {LOOK}")
        self.own.refuse_cut(self.log(shard), length)
        if shard == NOTES:
            self.notes.truncate(length)
        else:
            self.truncate_journal(self.shards[shard], length)
        self.own.was_cut(self.log(shard))

    def truncate_journal(self, found: Shard, length: int) -> None:
        self.standby.end_now()
        mark = self.locked_mark()
        try:
            size = found.forget_beyond(length)
            has_ended = not any(left.may_have_grown for left in mark.left().values())
            mark.is_cut(found.number, Left(size, min(length, count_seals(found.path)), True))
            cut(found.path, size, length)
            if has_ended:
                mark.has_ended()
        finally:
            mark.close()

    # What a position says

    def counts(self) -> tuple[int, ...]:
        return (*filled([shard.count for shard in self.shards], 0), self.notes.count)

    def sizes(self) -> tuple[int, ...]:
        return (*filled([shard.size for shard in self.shards], len(VERSION_LINE)), 0)

    def uncounted(self) -> int:
        """Returns how many records that are known here don't count yet."""
        return sum(len(shard.beyond) for shard in self.shards) + len(self.notes.beyond)

    def seal(self) -> None:
        """Seals what a run of standby has appended: what is followed by another record is durable."""
        if not self.standby.is_running:
            return
        for shard in self.shards:
            has_all = shard.bytes_in_file() >= shard.size
            self.standby.are_durable(shard.number, max(shard.count - 1, 0) if has_all else 0)

    def grown(self, before: Position, position: Position) -> "list[str]":
        """Returns the files of which more counts at a position than at the one before."""
        return [log.path for log in self.logs if position.counts[log.number] > before.counts[log.number]]

    def are_there(self, position: Position) -> bool:
        """Whether the journals have what counts at a position."""
        return not self.standby.is_running or all(
            shard.bytes_in_file() >= position.sizes[shard.number] for shard in self.shards
        )


def filled(numbers: Sequence[int], last: int) -> tuple[int, ...]:
    """Returns a number for each shard that can be."""
    return (*numbers, *(last for _ in range(NOTES - len(numbers))))


def cut(path: str, size: int, length: int) -> None:
    """Truncates a journal and its seals durably: the seals first, since a start asks for each record that has one."""
    with Seals(path) as seals, seals.locked():
        if seals.count > length:
            seals.forget_after(length)
    with open(path, "rb+") as opened:
        opened.truncate(size)
        os.fsync(opened.fileno())
