"""The notes of work on cards: what of orders and accounts' declines was begun, and what became of it.

They are the records of one more shard: each is a line of `JOURNAL.work`, and counts as records do. So whichever machine
goes on knows what was begun before a line was put, and settles it. The file may begin with a line that says the place
of its first note: what nobody asks for any more is left out when the file is long.

A note that can't be parsed isn't made. If one comes all the same, who serves passes over it and says so: orders and
declines don't know it, and requests don't ask for it.
"""
import collections
import contextlib
import errno
import os
import re
from typing import Any, Protocol

from issuer_host.facts.journals import MAX_RECORD_LINE
from issuer_host.facts.limited import LimitedTelling
from issuer_host.facts.refusal import Refusal
from issuer_host.facts.troubles import Level, say
from issuer_host.files.placement import put_in_place
from issuer_host.files.regular_files import open_regular
from issuer_host.files.summed_lines import may_be_torn, said_of, summed
from issuer_host.files.whole_writes import write_whole
from issuer_host.host.event_loop import Action
from issuer_host.orders.intent_log import Begun, DECLINE, ENDING, KNOWN, MOST_LINES, WorkFile
from issuer_host.orders.order_types import TYPES
from issuer_host.replication.messages import NOTES

FIRST = "first"
# The members of a note that work begins, and of one that says what became of it.
NUMBER = re.compile(r"[0-9A-Za-z/-]{1,60}")
BEGUN = {
    "number": NUMBER,
    "form": re.compile(rf"|[{''.join(TYPES)}]|{DECLINE}"),
    "pan": re.compile(r"|[0-9]{8,20}"),
    "psn": re.compile(r"|[0-9]{2}"),
    "value": re.compile(r"[0-9a-f]{0,64}"),
    "before": re.compile(r"[0-9]?"),
}
ENDED = {"number": NUMBER, "answer": re.compile(r"[ -~]*")}
TOTAL = "total"


def notes_path(journal: str) -> str:
    return journal + ENDING


def read_notes(journal: str) -> "tuple[int, list[str]]":
    """Returns the place of a file's first note, and its notes. A torn last line is none; a changed one is refused."""
    path = notes_path(journal)
    try:
        with open(open_regular(path, os.O_RDONLY), encoding="latin-1", newline="\n") as text:
            *lines, _ = text.read().split("\n")
    except FileNotFoundError:
        return 0, []
    for number, line in enumerate(lines, 1):
        if was_changed(line):
            raise Refusal(
                f"line {number} of {path} was changed since it was written: copy another machine's journals by"
                " deploy/node --copy"
            )
    with contextlib.suppress(ValueError, IndexError, KeyError, TypeError):
        return int(said_of(lines[0])[FIRST]), lines[1:]
    return 0, lines


def was_changed(line: str) -> bool:
    try:
        said_of(line)
    except ValueError:
        return not may_be_torn(line)
    return False


def write_notes(journal: str, first: int, lines: "list[str]") -> int:
    """Puts notes in place of those that a file has, durably. Returns the bytes."""
    text = "".join(f"{line}\n" for line in (summed({FIRST: first}), *lines)).encode("latin-1")
    put_in_place(notes_path(journal), text)
    return len(text)


class Notes:
    """The notes of a machine: how many count, and those beyond them."""

    number = NOTES
    # (a position has no bytes of them)
    size = 0

    def __init__(self, journal: str, count: int) -> None:
        self.journal = journal
        self.path = notes_path(journal)
        self.count = count
        self.beyond: collections.deque[str] = collections.deque()
        # What comes after those, and is told to no rule before it comes from the stream too.
        self.later: collections.deque[str] = collections.deque()
        self.lines = 0
        # The bytes of the file.
        self.bytes = 0

    def open(self) -> None:
        first, lines = read_notes(self.journal)
        if first + len(lines) < self.count or first > self.count:
            raise Refusal(f"{self.path} hasn't the {self.count} notes that count: copy another machine's journals")
        self.beyond = collections.deque(lines[self.count - first :])
        self.lines = len(lines)
        self.bytes = write_notes(self.journal, first, lines)

    def length(self) -> int:
        return self.count + len(self.beyond)

    def total(self) -> int:
        return self.length() + len(self.later)

    def text(self, place: int) -> str:
        return self.beyond[place - self.count]

    def all(self) -> "list[str]":
        return read_notes(self.journal)[1]

    def append(self, text: str) -> None:
        """Appends a note whole, or leaves what is there."""
        if self.lines > MOST_LINES and not self.beyond:
            self.leave_out()
        data = text.encode("ascii") + b"\n"
        file = open_regular(self.path, os.O_WRONLY)
        try:
            write_whole(file, data, self.bytes)
        except OSError:
            os.ftruncate(file, self.bytes)
            raise
        finally:
            os.close(file)
        self.beyond.append(text)
        self.bytes += len(data)
        self.lines += 1

    def sync(self) -> None:
        with open(self.path, "rb") as opened:
            os.fdatasync(opened.fileno())

    def count_next(self) -> None:
        self.beyond.popleft()
        self.count += 1

    def truncate(self, length: int) -> None:
        while self.length() > length:
            self.bytes -= len(self.beyond.pop()) + 1
            self.lines -= 1
        with open(self.path, "rb+") as opened:
            opened.truncate(self.bytes)
            os.fsync(opened.fileno())

    def leave_out(self) -> None:
        """Writes the file anew without what nobody asks for any more. All notes count."""
        known = WorkFile(self.journal, "node")
        for line in self.all():
            with contextlib.suppress(ValueError):
                known.take(work_of(line))
        lines = [as_note(begun._asdict()) for begun in known.open.values()]
        for number, (value, answer) in list(known.ended.items())[-KNOWN:]:
            lines.append(as_note(Begun(number, "", "", "", 0, value)._asdict()))
            lines.append(as_note({"number": number, "answer": answer}))
        self.bytes = write_notes(self.journal, self.count - len(lines), lines)
        self.lines = len(lines)


def as_note(said: "dict[str, Any]") -> str:
    """Returns the text of a note. An OSError says that it couldn't be parsed."""
    text = summed(said)
    try:
        work_of(text)
    except ValueError as fault:
        raise OSError(errno.EINVAL, f"it makes no note that can be read: {fault}") from fault
    return text


def work_of(text: str) -> "dict[str, Any]":
    """Returns what a note says. One that can't be parsed is a ValueError."""
    said = said_of(text)
    if len(text) >= MAX_RECORD_LINE:
        raise ValueError("it is longer than a record")
    forms = ENDED if "answer" in said else BEGUN
    numbers = [] if forms is ENDED else [said.pop(TOTAL, None)]
    if set(said) != set(forms) or not all(type(one) is int and one >= 0 for one in numbers):
        raise ValueError("its members are others")
    for name, form in forms.items():
        if not isinstance(said[name], str) or not form.fullmatch(said[name]):
            raise ValueError(f"its {name} has another form")
    return {**said, TOTAL: numbers[0]} if numbers else said


class NoteStream(Protocol):
    """Where notes go beside their file: what is noted counts once the stream has it."""

    def notes(self) -> Notes:
        """Returns the notes of this machine."""

    def noted(self) -> None:
        """A note was appended."""

    def when_noted(self, action: Action) -> None:
        """Does something once all notes count."""


class NotedWork(WorkFile):
    """`WorkFile` over notes."""

    def __init__(self, journal: str, stream: NoteStream, name: str) -> None:
        super().__init__(journal, name)
        self.stream = stream

    def load(self) -> None:
        """Takes what the notes say: another machine may have written them."""
        self.open.clear()
        self.ended.clear()
        notes = self.stream.notes()
        limited = LimitedTelling(lambda text: say(self.name, Level.WARNING, text))
        lines = notes.all()
        for place, line in enumerate(lines, notes.length() - len(lines)):
            try:
                self.take(work_of(line))
            except ValueError as fault:
                limited.tell(f"{notes.path}: note {place} is passed over, and no order or decline knows it: {fault}")

    def begin(self, begun: Begun) -> None:
        """Notes that work begins. An OSError says that it may not."""
        self.append([begun._asdict()])
        self.open[begun.number] = begun
        self.stream.notes().sync()

    def append(self, said: "list[dict[str, Any]]") -> None:
        notes = self.stream.notes()
        for one in said:
            text = as_note(one)
            notes.append(text)
            self.stream.noted()

    def when_noted(self, action: Action) -> None:
        """Does something once what was noted counts: no line is put before."""
        self.stream.when_noted(action)

    def close(self) -> None:
        pass
