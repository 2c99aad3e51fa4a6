"""An account's decline: a request that the issuer's host declines since the account does.

It is one message of three lines: `S PAN PSN DIGIT`, with a status whose row of the table declines; the request, of the
form A; and a line of the form S again. The bridge puts them as neighbouring lines of their card. The last one gives the
card the status back that it had before the first, whatever its digit says: so a status that an operator sets meanwhile
isn't undone. The message's answer is that of the request.
"""
import os
import re
from typing import NamedTuple, Optional, Protocol

from issuer_host.facts.answers import REFUSED, RefusalNumber, SET, kind_of
from issuer_host.facts.limits import MAX_LINE_BYTES
from issuer_host.facts.request_lines import DECIDE, SET_STATUS, objects_of, pan_of_line
from issuer_host.facts.troubles import Level, say
from issuer_host.files.card_records import Card
from issuer_host.host.lines import Entry
from issuer_host.orders.in_order import Ledger, Put, Steps, Work, restore
from issuer_host.orders.intent_log import Begun, DECLINE

LINES = 3
STATUS_LINE = re.compile(rf"{SET_STATUS} (?P<pan>[0-9]{{8,19}}) (?P<psn>[0-9]{{2}}) (?P<digit>[0-9])")
PSN_TAG = b"\x5f\x34"
NO_PSN = "00"
NOT_RECORDED = f"{REFUSED} {int(RefusalNumber.STORE_FAULT)}"


class Decline(NamedTuple):
    """A request, and the status by which it is declined."""

    card: Card
    status: str
    request: str


def body_of(request: str, status: int) -> str:
    """Returns the message that has a request declined by a status. A request without a whole PAN is a ValueError."""
    pan, psn = card_of_request(request)
    line = f"{SET_STATUS} {pan} {psn} {status}"
    return "\n".join((line, request, f"{SET_STATUS} {pan} {psn} 0"))


def card_of_request(line: str) -> Card:
    """Returns the card of a line of the form A."""
    for tag, value in objects_of(bytes.fromhex(line.partition(" ")[2])):
        if tag == PSN_TAG:
            return pan_of_line(line), value.hex()
    return pan_of_line(line), NO_PSN


def decline_of(body: bytes) -> Optional[Decline]:
    """Returns the decline that a message is, or None."""
    lines = body.decode("latin-1").split("\n")
    if len(lines) != LINES or not lines[1].startswith(f"{DECIDE} ") or len(lines[1]) > MAX_LINE_BYTES:
        return None
    first, last = STATUS_LINE.fullmatch(lines[0]), STATUS_LINE.fullmatch(lines[2])
    if not first or not last:
        return None
    card = first["pan"], first["psn"]
    try:
        is_of_card = card_of_request(lines[1]) == card == (last["pan"], last["psn"])
    except ValueError:
        return None
    return Decline(card, first["digit"], lines[1]) if is_of_card else None


class Replier(Protocol):
    """Who sends the answer of a decline."""

    def send(self, entry: Entry, text: str) -> None:
        """Sends the answer."""

    def drop(self, entry: Entry) -> None:
        """No answer comes any more."""


class Declining(Work):
    """A decline that is put."""

    by = "account"

    def __init__(self, decline: Decline, entry: Entry, replier: Replier) -> None:
        super().__init__(decline.card[0])
        self.decline = decline
        self.entry = entry
        self.replier = replier

    def steps(self, ledger: Ledger) -> Steps:
        """The three lines; the request alone, if its card has the status; none, if they can't be noted before."""
        card, status, request = self.decline
        if self.entry.is_over:
            self.replier.drop(self.entry)
            return
        if ledger.records.status(card) == status:
            self.replier.send(self.entry, (yield Put(request)))
            return
        begun = self.begin(ledger)
        if begun is None:
            self.replier.send(self.entry, NOT_RECORDED)
            return
        answer = yield Put(self.status_line(status))
        if kind_of(answer).word != SET:
            if answer != NOT_RECORDED:
                ledger.file.end(begun.number)
            self.replier.send(self.entry, answer)
            return
        self.replier.send(self.entry, (yield Put(request)))
        yield from restore(begun, ledger)

    def begin(self, ledger: Ledger) -> Optional[Begun]:
        """Notes durably that the card gets another status for a moment."""
        pan, psn = card = self.decline.card
        total = ledger.records.of(SET_STATUS, card).total
        before = ledger.records.status(card)
        begun = Begun(os.urandom(8).hex(), DECLINE, pan, psn, total, self.decline.status, before)
        try:
            ledger.file.begin(begun)
        except OSError as fault:
            say(ledger.name, Level.WARNING, f"no decline can be noted: {fault.strerror}")
            return None
        return begun

    def status_line(self, status: str) -> str:
        return f"{SET_STATUS} {self.decline.card[0]} {self.decline.card[1]} {status}"
