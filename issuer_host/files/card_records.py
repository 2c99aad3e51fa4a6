"""What a partition's journals say of commands and statuses: how many each card was given, and which was the last.

Decisions are passed over. A journal is read in pieces, so that the bridge's loop goes on meanwhile.
"""
import os
from collections.abc import Iterator
from typing import BinaryIO, NamedTuple, Optional

from issuer_host.facts.answers import QUEUED, SET
from issuer_host.facts.journals import Queued, StatusSet, journal_path, record_of, shards_of_files
from issuer_host.facts.request_lines import QUEUE, SET_STATUS

Card = tuple[str, str]

PIECE = 1 << 20
# How lines of these records begin, behind the newline of the line before.
BEGINNINGS = (b"\nq ", b"\ns ")
# The word of a record's answer, by the form of its line.
WORDS = {QUEUE: QUEUED, SET_STATUS: SET}


class Last(NamedTuple):
    """A card's records of one form: how many there are, and the value, the shard and the place of the last one."""

    total: int = 0
    value: str = ""
    shard: int = 0
    place: int = 0


NONE = Last()


class ReadJournal:
    """A shard's journal, as far as it was read."""

    def __init__(self, name: str, shard: int) -> None:
        self.shard = shard
        self.file: BinaryIO = open(journal_path(name, shard), "rb", buffering=0)
        self.at = 0
        # Up to where it is read; None if to its end.
        self.end: Optional[int] = None
        # How many whole lines were read: the first is the version's.
        self.lines = 0
        self.rest = b"\n"

    def read_on(self) -> "Iterator[tuple[int, str]]":
        """Reads a piece. Returns the commands and statuses in it, each with its place."""
        piece = os.pread(self.file.fileno(), PIECE, self.at)
        self.at += len(piece)
        # (what is searched begins with the newline before it)
        text = self.rest + piece
        end = text.rfind(b"\n")
        self.rest = text[end:]
        before, lines = 0, self.lines
        self.lines += text.count(b"\n", 0, end)
        for at in found_in(text, end):
            lines += text.count(b"\n", before, at)
            before = at
            yield lines - 1, text[at + 1 : text.index(b"\n", at + 1)].decode("ascii")

    def is_at_end(self) -> bool:
        return self.at >= (self.size() if self.end is None else self.end)

    def size(self) -> int:
        return os.fstat(self.file.fileno()).st_size

    def close(self) -> None:
        self.file.close()


def found_in(text: bytes, end: int) -> list[int]:
    """Returns where lines of commands and statuses begin that end before `end` or there: at the newlines before."""
    found = []
    for beginning in BEGINNINGS:
        at = text.find(beginning, 0, end)
        while at >= 0:
            found.append(at)
            at = text.find(beginning, at + 1, end)
    return sorted(found)


class CardRecords:
    """The commands and statuses of all cards of a partition."""

    def __init__(self, name: str) -> None:
        self.name = name
        self.journals: list[ReadJournal] = []
        self.last: dict[tuple[str, Card], Last] = {}

    def open(self) -> None:
        if not self.journals:
            self.journals = [ReadJournal(self.name, shard) for shard in shards_of_files(self.name).journals]

    def read_on(self) -> bool:
        """Reads a piece of a journal. Returns whether all journals are read to their ends."""
        self.open()
        unread = next((journal for journal in self.journals if not journal.is_at_end()), None)
        if unread is None:
            return True
        for place, line in unread.read_on():
            self.take(unread.shard, place, line)
        return False

    def mark(self) -> None:
        """What is appended from now on needn't be read."""
        self.open()
        for journal in self.journals:
            journal.end = journal.size()

    def read_all(self) -> None:
        while not self.read_on():
            pass
        self.close()

    def take(self, shard: int, place: int, line: str) -> None:
        record = record_of(line)
        if isinstance(record, Queued):
            self.note(QUEUE, record.card, record.command, shard, place)
        elif isinstance(record, StatusSet):
            self.note(SET_STATUS, record.card, str(record.status), shard, place)

    def note(self, form: str, card: Card, value: str, shard: int, place: int) -> None:
        """A command or a status was recorded."""
        total = self.of(form, card).total + 1
        self.last[form, card] = Last(total, value.lower(), shard, place)

    def of(self, form: str, card: Card) -> Last:
        return self.last.get((form, card), NONE)

    def status(self, card: Card) -> str:
        """Returns a card's status: one that was given none has 0."""
        return self.of(SET_STATUS, card).value or "0"

    def close(self) -> None:
        for journal in self.journals:
            journal.close()
        self.journals = []


def answer_of(form: str, last: Last) -> str:
    """Returns the answer that the line of a card's last record of a form got."""
    return f"{WORDS[form]} {last.shard} {last.place}"


def records_of(name: str) -> CardRecords:
    """Returns what journals that no host writes say."""
    found = CardRecords(name)
    found.read_all()
    return found
