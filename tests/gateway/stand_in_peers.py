"""A peer, a clock and a host that stand in for those of a gateway, for tests of what becomes of messages."""
import contextlib
import io
from collections.abc import Callable, Iterator
from typing import Any, Optional, Union

from gateway.gateways import DIALECTS
from issuer_host.gateway.dialect import Dialect
from issuer_host.gateway.dialect_file import named, read_dialect
from issuer_host.gateway.figures import GatewayFigures
from issuer_host.gateway.message_handler import MessageHandler
from issuer_host.gateway.log import Limited
from issuer_host.gateway.mapping import CODE
from issuer_host.gateway.message import Message, Value
from issuer_host.gateway.options import DIALECTS as FOLDER
from issuer_host.gateway.requests import RequestLine

PAN = "4000000000000077"
CHIP = (
    "82025800" "95050000008000" "9a03260115" "9c0100" "9f0206000000001250" "9f0306000000000000"
    "9f10200fa501a00000000000000000000000000f0000000000000000000000000000" "9f1a020276" "5f2a020978"
    "9f260893ca56c3aba30d23" "9f270180" "9f36020001" "9f37041a2b3c4d"
)  # fmt: skip
APPROVED = "fresh 0 3 yes 3030 8a023030910a0aaeed7f9b4b5a1d3030"
REFUSED = "refused 3 9f1a"


def dialects() -> dict[str, Dialect]:
    """The shipped dialects."""
    return {name: read_dialect(named(name, FOLDER)) for name in DIALECTS}


def message_of(kind: str, **elements: Optional[Union[str, bytes]]) -> Message:
    """A message of an approvable request's elements, and others by `e37` ..; one that is None is left out."""
    found: dict[int, Value] = {
        2: PAN,
        3: "000000",
        4: "000000001250",
        11: "000123",
        37: "000000000456",
        41: "TERM0001",
        55: bytes.fromhex(CHIP),
    }
    for name, value in elements.items():
        found.pop(int(name[1:]), None)
        if value is not None:
            found[int(name[1:])] = value
    return Message(kind, found)


class StandInPeer:
    """A peer that keeps its responses."""

    def __init__(self, dialect: Dialect) -> None:
        self.dialect, self.address = dialect, "127.0.0.1:5000"
        self.responses: list[Message] = []
        self.in_flight = 0

    def respond(self, message: Message, began: float) -> str:
        self.responses.append(message)
        return str(message.elements[CODE])

    def hold(self) -> None:
        self.in_flight += 1

    def let_go(self) -> None:
        self.in_flight -= 1

    @property
    def codes(self) -> list[str]:
        """Element 39 of each response."""
        return [str(it.elements[CODE]) for it in self.responses]


class StandInHost:
    """Takes request lines, and answers when the test says so."""

    def __init__(self) -> None:
        self.asked: list[RequestLine] = []
        self.waiting: list[Callable[[Optional[str]], None]] = []

    def ask(self, line: RequestLine, source: object, began: float, then: Callable[[Optional[str]], None]) -> None:
        self.asked.append(line)
        self.waiting.append(then)

    def answer(self, text: Optional[str]) -> None:
        """Answers the line that waits for longest."""
        self.waiting.pop(0)(text)


class HandlingBench:
    """The handler of messages, with a peer and a host that stand in."""

    def __init__(self, dialect: Dialect, **more: Any) -> None:
        self.peer, self.host = StandInPeer(dialect), StandInHost()
        self.figures = GatewayFigures(1)
        self.handler = MessageHandler(self.figures, Limited(), self.host.ask, **more)

    def take(self, message: Message) -> None:
        self.handler.take(self.peer, message, 0.0)


@contextlib.contextmanager
def told() -> Iterator[io.StringIO]:
    """What is written to the error output meanwhile."""
    written = io.StringIO()
    with contextlib.redirect_stderr(written):
        yield written
