"""What the gateway itself says on a connection, by its session: sign-on, echo tests, sign-off."""

import asyncio
import datetime
import itertools
import time
from collections.abc import Callable, Iterator
from typing import Optional, Protocol

from issuer_host.gateway import mapping, responses
from issuer_host.gateway.dialect import Dialect
from issuer_host.gateway.message import Codec, Message, VERSION_OF, Value
from issuer_host.gateway.session import Action, Leave, Session, Tell

# The element with the time of transmission, in universal time, and the one with the transaction's, in local time.
SENT, LOCAL_TIME = 7, 12
LOCAL_FORMS = {"1987": "%H%M%S", "1993": "%y%m%d%H%M%S", "2003": "%Y%m%d%H%M%S"}
ORIGIN = {"1987": "0", "1993": "4", "2003": "4"}
# Codes with which a peer accepts a network message.
ACCEPTING = {"1987": ("00",), "1993": ("800", "000"), "2003": ("8000", "0000")}
# (a run begins at another trace number than the last one did)
NUMBERS: Iterator[int] = itertools.count(int(time.time()))


class TalkLink(Protocol):
    """A connection, as its talk sees it."""

    codec: Codec
    loop: asyncio.AbstractEventLoop
    transport: Optional[asyncio.Transport]
    is_closing: bool

    @property
    def frame_of(self) -> Callable[[bytes], bytes]:
        """What puts a length before a message."""

    def close_after_answers(self, why: str, said: str = "") -> None:
        """Reads no more, answers what is in flight, and closes."""


class Talk:
    """The talk of a connection."""

    def __init__(self, link: TalkLink, dialect: Dialect, is_dialled: bool) -> None:
        self.link, self.dialect = link, dialect
        self.session = Session(dialect.network, is_dialled)
        # The trace number of what has no answer yet.
        self.trace = ""
        self.has_begun = False

    def opened(self) -> None:
        self.has_begun = True
        self.do(self.session.opened(self.link.loop.time()))

    def take(self, message: Message) -> bool:
        """Sees a network message. Returns whether it answers one of the gateway's own, so that nothing follows."""
        kind = message.kind
        if kind[1] != mapping.NETWORK_CLASS:
            return False
        elements = message.elements
        if mapping.what_to_do(kind) == mapping.ECHO:
            if responses.is_accepted(self.dialect, message):
                self.session.told(str(elements.get(self.dialect.network.element, "")))
            return False
        if not self.session.asked or elements.get(mapping.STAN) != self.trace:
            return False
        is_accepted = elements.get(mapping.CODE) in ACCEPTING[self.dialect.edition]
        self.do(self.session.answered(is_accepted, self.link.loop.time()))
        return True

    def refusal_of(self, message: Message) -> str:
        """Element 39 of a request that comes while the link is signed off; nothing if it is decided."""
        is_refused = not self.session.is_signed_on and mapping.what_to_do(message.kind) == mapping.DECIDE
        return self.dialect.network.signed_off if is_refused else ""

    def look(self, now: float) -> None:
        if self.has_begun:
            self.do(self.session.looked(now))

    def is_leaving(self) -> bool:
        """The gateway ends. Returns whether the connection waits for the answer to a message of the gateway's own."""
        self.do(self.session.left(self.link.loop.time()))
        return bool(self.session.asked)

    def do(self, action: Optional[Action]) -> None:
        if isinstance(action, Leave):
            self.link.close_after_answers(action.why)
        elif isinstance(action, Tell) and self.link.transport is not None and not self.link.is_closing:
            message = network_message(self.dialect, action.code, next(NUMBERS), datetime.datetime.now().astimezone())
            self.trace = str(message.elements.get(mapping.STAN, ""))
            self.link.transport.write(self.link.frame_of(self.link.codec.pack(message)))


def network_message(dialect: Dialect, code: str, number: int, now: datetime.datetime) -> Message:
    """A network message of the gateway's own: time, trace number and code, as far as the dialect has these elements."""
    edition, formats = dialect.edition, dialect.formats
    found: dict[int, str] = {
        SENT: now.astimezone(datetime.timezone.utc).strftime("%m%d%H%M%S"),
        dialect.network.element: code,
    }
    if mapping.STAN in formats:
        size = formats[mapping.STAN].size
        found[mapping.STAN] = f"{number % (10 ** min(size, 6) - 1) + 1:0{size}}"
    if edition != "1987":
        found[LOCAL_TIME] = now.strftime(LOCAL_FORMS[edition])
    elements: dict[int, Value] = {}
    for number_of, text in (*found.items(), *dialect.network.own.items()):
        if number_of in formats and formats[number_of].has_room_for(len(text)):
            elements[number_of] = text
    return Message(f"{VERSION_OF[edition]}80{ORIGIN[edition]}", elements)
