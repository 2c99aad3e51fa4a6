"""The file beside the journals that says which work on cards was begun, and what became of the last orders.

`JOURNAL.work` has a JSON object a line, with a sum of the line. Before a line is put whose record must not be made
twice, or has to be undone, what is needed to settle it is appended and synced. What became of it is appended after. If
that never came, the journals say it: they have one more record of the card then, or they don't.

If the file can't be read, or a line was changed, no order and no decline is done until a person has looked. Requests go
on.

Who has the journals' lock may write it: a bridge whose host runs, or an order over journals that no host serves.
"""
import errno
import hashlib
import os
from collections.abc import Callable
from typing import Any, NamedTuple, Optional

from issuer_host.facts.refusal import Refusal
from issuer_host.facts.request_lines import SET_STATUS
from issuer_host.facts.troubles import Level, say
from issuer_host.files.card_records import Card, CardRecords, answer_of
from issuer_host.files.folders import as_owner, folder_of, sync_folder
from issuer_host.files.placement import put_in_place
from issuer_host.files.regular_files import open_regular
from issuer_host.files.summed_lines import is_torn_end, may_be_torn, said_of, summed

ENDING = ".work"
# So many ended orders are known at least. With so many lines the file is written anew.
KNOWN = 2_000
MOST_LINES = 20_000
# An account's decline: its form, beside those of the lines of orders.
DECLINE = "decline"
# The members of a line that says what became of work.
ENDED = {"number", "answer"}


class Begun(NamedTuple):
    """Work that was begun on a card."""

    number: str
    # The form of an order's line, or DECLINE.
    form: str
    pan: str
    psn: str
    # How many records of its form the card had before: of statuses, if it is a decline.
    total: int
    # The sum of an order's line, or the status by which a decline is decided.
    value: str
    # The status that a card of a decline had before.
    before: str = ""

    @property
    def card(self) -> Card:
        return self.pan, self.psn


def sum_of(form: str, card: Card, value: str) -> str:
    """Returns what tells an order's line from others."""
    return hashlib.sha256(" ".join((form, *card, value.lower())).encode("ascii")).hexdigest()


class WorkFile:
    """The file, and what it says."""

    def __init__(self, journal: str, name: str) -> None:
        """`name` is that of the service which reports faults of the file."""
        self.journal, self.name = journal, name
        self.path = journal + ENDING
        self.open: dict[str, Begun] = {}
        # By number: the sum of an order's line, and its answer.
        self.ended: dict[str, tuple[str, str]] = {}
        self.file = -1
        # Why no work may begin; nothing if it may.
        self.fault = ""
        # What was to be appended and couldn't be, and whether a part of it may have been.
        self.unwritten: list[dict[str, Any]] = []
        self.is_torn = False
        self.lines = 0

    def load(self) -> None:
        """Reads the file anew: another bridge may have written it. A fault of it lets no work begin."""
        self.clear()
        self.fault = ""
        try:
            self.read()
        except (OSError, Refusal) as fault:
            self.refuse(getattr(fault, "strerror", None) or str(fault))
        except (ValueError, KeyError, TypeError):
            self.refuse(f"line {self.lines + 1} was changed since it was written")

    def refuse(self, why: str) -> None:
        """Lets no work begin, and tells why."""
        self.clear()
        self.fault = (
            f"{self.path}: {why}. Stop the host, and restore the file from a copy. Without a copy look at the cards'"
            " statuses, and move the file away: orders that were done aren't known by their numbers then"
        )
        say(self.name, Level.ERROR, f"no order and no account's decline is done: {self.fault}")

    def clear(self) -> None:
        self.close()
        self.open.clear()
        self.ended.clear()
        self.unwritten.clear()
        self.is_torn = False
        self.lines = 0

    def read(self) -> None:
        with as_owner(folder_of(self.path)):
            self.file = open_regular(self.path, os.O_RDWR | os.O_CREAT | os.O_APPEND)
        with open(os.dup(self.file), "rb") as opened:
            *whole, torn = opened.read().decode("latin-1").split("\n")
        for line in whole:
            self.take_line(line)
        if torn:
            self.take_end(torn)
        if not whole:
            sync_folder(folder_of(self.path))

    def take_line(self, line: str) -> None:
        """Takes a whole line. One that was changed is a ValueError, a KeyError or a TypeError."""
        try:
            said = said_of(line)
        except ValueError:
            if not may_be_torn(line):
                raise
            # (a line that couldn't be written whole is none)
            self.lines += 1
        else:
            self.take(said)

    def take_end(self, text: str) -> None:
        """Truncates what follows the last newline, unless its newline alone is missing."""
        try:
            self.take(said_of(text))
            self.is_torn = True
        except (ValueError, KeyError, TypeError):
            if not is_torn_end(text):
                raise
            os.ftruncate(self.file, os.fstat(self.file).st_size - len(text))

    def take(self, said: dict[str, Any]) -> None:
        if set(said) != ENDED:
            begun = Begun(**said)
            self.open[begun.number] = begun
        else:
            ended = self.open.pop(said["number"], None)
            if ended and ended.form != DECLINE and said["answer"]:
                self.ended[ended.number] = ended.value, said["answer"]
        self.lines += 1

    def rewrite(self) -> None:
        """Leaves out what nobody asks for any more."""
        self.ended = dict(list(self.ended.items())[-KNOWN:])
        said = [begun._asdict() for begun in self.open.values()]
        for number, (value, answer) in self.ended.items():
            said += [Begun(number, "", "", "", 0, value)._asdict(), {"number": number, "answer": answer}]
        with as_owner(folder_of(self.path)):
            put_in_place(self.path, text_of(said))
            made = open_regular(self.path, os.O_RDWR | os.O_APPEND)
        os.close(self.file)
        self.file = made
        self.lines = len(said)

    def begin(self, begun: Begun) -> None:
        """Notes durably that work begins. An OSError says that it may not."""
        if self.fault:
            raise OSError(errno.EIO, self.fault)
        if self.lines > MOST_LINES:
            self.rewrite()
        self.append([begun._asdict()])
        os.fdatasync(self.file)
        self.open[begun.number] = begun

    def end(self, number: str, answer: str = "") -> None:
        """Notes what became of work, an empty text if nothing did. A fault of the disk leaves it to the journals.

        Earlier work on its card that was left open, as the disk took no record, came to nothing: the host wrote over
        it.
        """
        ended = self.open[number]
        left = [other for other, begun in self.open.items() if begun.card == ended.card and answer]
        said = [{"number": other, "answer": ""} for other in left if other != number]
        said.append({"number": number, "answer": answer})
        for one in said:
            self.take(one)
            self.lines -= 1
        try:
            self.append(said)
        except OSError as fault:
            say(
                self.name,
                Level.WARNING,
                f"{self.path} can't be written: {fault.strerror}; the journals say what it would",
            )

    def when_noted(self, action: Callable[[], object]) -> None:
        """Does something once what was noted is known wherever it may be needed: here it is."""
        action()

    def append(self, said: list[dict[str, Any]]) -> None:
        """Appends lines whole, behind those that couldn't be appended before."""
        self.unwritten += said
        text = b"\n" * self.is_torn + text_of(self.unwritten)
        size = os.fstat(self.file).st_size
        try:
            if os.write(self.file, text) != len(text):
                raise OSError(errno.ENOSPC, os.strerror(errno.ENOSPC))
        except OSError:
            self.is_torn = self.is_torn or not self.is_back(size)
            if "answer" not in said[-1]:
                del self.unwritten[-len(said) :]
            raise
        self.is_torn = False
        self.lines += len(self.unwritten)
        self.unwritten.clear()

    def is_back(self, size: int) -> bool:
        """Truncates the file to the bytes that it had. Returns whether it could."""
        try:
            os.ftruncate(self.file, size)
        except OSError:
            return False
        return True

    def close(self) -> None:
        if self.file >= 0:
            os.close(self.file)
            self.file = -1

    def settle_orders(self, records: CardRecords) -> None:
        """Notes what became of orders that were interrupted, as the journals say."""
        for begun in list(self.open.values()):
            if begun.form == DECLINE:
                continue
            last = records.of(begun.form, begun.card)
            is_recorded = last.total > begun.total and sum_of(begun.form, begun.card, last.value) == begun.value
            self.end(begun.number, answer_of(begun.form, last) if is_recorded else "")

    def declines(self) -> list[Begun]:
        return [begun for begun in self.open.values() if begun.form == DECLINE]


def text_of(said: list[dict[str, Any]]) -> bytes:
    return "".join(summed(one) + "\n" for one in said).encode()


def restoring_line(begun: Begun, records: CardRecords) -> Optional[str]:
    """Returns the line that gives a card the status back that it had before an interrupted decline, if it needs one."""
    last = records.of(SET_STATUS, begun.card)
    if last.total == begun.total + 1 and last.value == begun.value:
        return f"{SET_STATUS} {begun.pan} {begun.psn} {begun.before}"
    return None
