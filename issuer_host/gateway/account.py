"""The account: asked before the host whether it has the amount, and told if the host then refuses.

The gateway asks by one object, and gets one back. Whoever answers no within the limit is silent. A question and its
repeat have the same key, so a repeat is no second debit.
"""

import asyncio
import collections
import hashlib
from collections.abc import Callable, Mapping
from typing import Any, NamedTuple, Optional, Protocol

from issuer_host.facts.request_lines import Torn, objects_of
from issuer_host.gateway.figures import GatewayFigures
from issuer_host.gateway.log import Limited
from issuer_host.gateway.message import Message
from issuer_host.gateway.requests import RequestLine

YES, NO, SILENT = "yes", "no", "silent"
HOLD, RELEASE, APPROVED = "hold", "release", "approved"
# What the account is asked and told: `ask` has the word. Its answer to a notice.
ASK, DONE = "ask", "done"
# What it is asked of a request, by the tag of the card's object; numbers as texts.
FIELDS = {
    "5F34": "psn",
    "9F36": "atc",
    "9F02": "amount",
    "9F03": "other_amount",
    "5F2A": "currency",
    "9A": "date",
    "9C": "transaction_type",
    "9F1A": "terminal_country",
}
CRYPTOGRAM_TAG = "9F26"
NO_PSN = "00"
# So many questions are known whose time was over, and so many notices wait for their answer.
LATE, NOTICES = 10_000, 10_000
# A notice that isn't answered is sent again after so long, so many times; then it goes to the spool.
AGAIN_SECONDS, TIMES = 1.0, 5


class Verdict(NamedTuple):
    """What an account says: yes, no with a code of element 39, or nothing in time."""

    word: str
    code: str = ""

    @property
    def text(self) -> str:
        return f"{self.word} {self.code}".rstrip()


class AccountLink(Protocol):
    """How the account is reached. It calls `take` of the account for each object that comes."""

    def send(self, number: int, said: Mapping[str, Any]) -> bool:
        """Sends an object by its number. Returns whether it could: otherwise no answer comes."""

    async def close(self) -> None:
        """Ends."""


class Storing(Protocol):
    """Where objects are made durable."""

    def add(self, said: dict[str, Any], then: Callable[[bool], object]) -> None:
        """Stores an object, and calls `then` once: with whether it is durable."""


def question_of(line: RequestLine, elements: Mapping[str, str]) -> dict[str, Any]:
    """What the account is asked of a request."""
    found: dict[str, str] = {}
    try:
        for tag, value in objects_of(bytes.fromhex(line.line.partition(" ")[2])):
            found.setdefault(tag.hex().upper(), value.hex())
    except Torn:
        pass
    fields = {name: found[tag] for tag, name in FIELDS.items() if tag in found}
    fields.setdefault("psn", NO_PSN)
    named = (line.pan, fields["psn"], fields.get("atc", ""), found.get(CRYPTOGRAM_TAG, ""))
    key = hashlib.sha256(" ".join(named).encode()).hexdigest()[:32]
    return {ASK: HOLD, "key": key, "pan": line.pan, **fields, "repeat": line.is_repeat, "elements": dict(elements)}


def elements_of(message: Message, numbers: "tuple[int, ...]") -> dict[str, str]:
    """The texts among the elements of these numbers."""
    texts = ((it, message.elements.get(it)) for it in numbers)
    return {str(number): value for number, value in texts if isinstance(value, str)}


def verdict_of(said: Mapping[str, Any]) -> Optional[Verdict]:
    """The verdict of an answer, or None if it is none."""
    answer, code = said.get("answer"), said.get("code", "")
    if answer == YES:
        return Verdict(YES)
    return Verdict(NO, code) if answer == NO and isinstance(code, str) and code.isalnum() else None


class AccountQuestion:
    """A question without an answer yet."""

    __slots__ = ("key", "then", "timer")

    def __init__(self, key: str, then: Callable[[Verdict], None], timer: asyncio.TimerHandle) -> None:
        self.key, self.then, self.timer = key, then, timer


class Account:
    """Asks the account, and tells it what came of its answers."""

    def __init__(
        self,
        loop: asyncio.AbstractEventLoop,
        seconds: float,
        is_table: bool,
        figures: GatewayFigures,
        limited: Limited,
        spool: Optional[Storing] = None,
    ) -> None:
        """`is_table`: whether the table alone decides where the account is silent. If not, silence is a no."""
        self.loop, self.seconds, self.is_table = loop, seconds, is_table
        self.figures, self.limited, self.spool = figures, limited, spool
        # Makes the link, once the loop runs.
        self.connect: Callable[[], Optional[AccountLink]] = lambda: None
        self.link: Optional[AccountLink] = None
        self.number = 0
        self.open: dict[int, AccountQuestion] = {}
        # The keys of questions whose time was over.
        self.late: collections.OrderedDict[int, str] = collections.OrderedDict()
        self.notices: dict[int, dict[str, Any]] = {}

    # Questions

    def ask(self, line: RequestLine, elements: Mapping[str, str], then: Callable[[str, Verdict], None]) -> None:
        """Asks for a request. `then` gets the question's key and what the account said, once."""
        said = question_of(line, elements)
        key: str = said["key"]
        self.number += 1
        number = self.number
        timer = self.loop.call_later(self.seconds, self.expire, number)
        self.open[number] = AccountQuestion(key, lambda verdict: then(key, verdict), timer)
        if self.link is None or not self.link.send(number, said):
            self.end(number, Verdict(SILENT))

    def expire(self, number: int) -> None:
        self.late[number] = self.open[number].key
        if len(self.late) > LATE:
            self.late.popitem(last=False)
        self.end(number, Verdict(SILENT))

    def end(self, number: int, verdict: Verdict) -> None:
        question = self.open.pop(number)
        question.timer.cancel()
        self.figures.count("account_answers", ("answer", verdict.word))
        if verdict.word == SILENT:
            self.limited.tell("the account is silent: it has no connection, or answers too late")
        question.then(verdict)

    # What comes from the account

    def take(self, number: int, said: Mapping[str, Any]) -> None:
        """An object came: the answer to a question, also a late one, or to a notice."""
        verdict = verdict_of(said)
        if number in self.open:
            if verdict is None:
                self.limited.tell('the account\'s answer is none: {"answer": "yes"}, or "no" with a "code"')
            self.end(number, verdict or Verdict(SILENT))
        elif number in self.late:
            key = self.late.pop(number)
            if verdict is not None and verdict.word == YES and not self.is_table:
                self.tell(RELEASE, key, "its answer came too late")
        elif said.get("answer") == DONE:
            self.notices.pop(number, None)

    def lost(self) -> None:
        """The connection is lost: no answer comes to what was asked."""
        for number in list(self.open):
            self.end(number, Verdict(SILENT))

    # Notices

    def tell(self, what: str, key: str, why: str) -> None:
        """Tells the account to release an amount, or that the host approved though the account hadn't said yes."""
        self.figures.count("account_notices", ("notice", what))
        self.number += 1
        notice = {ASK: what, "key": key, "why": why}
        if len(self.notices) >= NOTICES:
            self.store(notice)
            return
        self.notices[self.number] = notice
        self.send(self.number, TIMES)

    def send(self, number: int, times: int) -> None:
        """Sends a notice, and again until it is answered; at last it is stored."""
        notice = self.notices.get(number)
        if notice is None:
            return
        if not times:
            del self.notices[number]
            self.store(notice)
            return
        if self.link is not None:
            self.link.send(number, notice)
        self.loop.call_later(AGAIN_SECONDS, self.send, number, times - 1)

    def store(self, notice: Mapping[str, Any]) -> None:
        said = {"what": notice[ASK], "key": notice["key"], "why": notice["why"]}

        def stored(is_stored: bool) -> None:
            if not is_stored:
                self.limited.tell(f"the account wasn't told: {said}")

        if self.spool is None:
            stored(False)
        else:
            self.spool.add(said, stored)

    # From the start to the end

    async def begin(self) -> None:
        """Connects: the loop runs."""
        self.link = self.connect()

    async def close(self) -> None:
        """Ends. Notices that weren't answered are stored."""
        for number in list(self.notices):
            self.store(self.notices.pop(number))
        if self.link is not None:
            await self.link.close()
