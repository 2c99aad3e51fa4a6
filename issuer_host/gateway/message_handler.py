"""What becomes of a message that a connection has read: a host is asked about it, or it gets its answer at once."""

from __future__ import annotations

import datetime
from collections.abc import Callable
from typing import Optional, Protocol

from issuer_host.facts import answers
from issuer_host.facts.masks import masked
from issuer_host.gateway import mapping, plans, responses
from issuer_host.gateway.account import elements_of
from issuer_host.gateway.account_order import AccountOrder, RequestOnItsWay, Result
from issuer_host.gateway.advices import Advices
from issuer_host.gateway.dialect import Dialect
from issuer_host.gateway.figures import GatewayFigures, labels_of_what
from issuer_host.gateway.log import Limited
from issuer_host.gateway.message import Message, Unreadable
from issuer_host.gateway.requests import RequestLine

Ask = Callable[[RequestLine, object, float, Callable[[Optional[str]], None]], None]


class MessagePeer(Protocol):
    """A connection, as the handler of its messages sees it."""

    dialect: Dialect
    # Where the other end is, for the log.
    address: str

    def respond(self, message: Message, began: float) -> str:
        """Sends a response, and returns its code in element 39."""

    def hold(self) -> None:
        """One more message is in flight."""

    def let_go(self) -> None:
        """A message in flight was answered."""


class Exchange:
    """A message, and what becomes of it."""

    __slots__ = ("peer", "message", "began", "line", "answer", "verdict", "why")

    def __init__(self, peer: MessagePeer, message: Message, began: float) -> None:
        """The message's time limit began when its last byte had arrived."""
        self.peer, self.message, self.began = peer, message, began
        # The line that a host is asked, and its answer.
        self.line: Optional[RequestLine] = None
        self.answer: Optional[str] = None
        # What the account said, if it was asked.
        self.verdict = ""
        # Why no host was asked.
        self.why = ""

    @property
    def name(self) -> str:
        """The message, as the log names it."""
        said = [self.message.kind]
        for word, number in (("STAN", mapping.STAN), ("RRN", mapping.RRN)):
            value = self.message.elements.get(number)
            if isinstance(value, str):
                said.append(f"{word} {value.strip()}")
        card = f", card {masked(self.line.pan)}" if self.line is not None else ""
        return f"{' '.join(said)} of {self.peer.address}{card}"


class AnswerLog(Protocol):
    """Notes what was answered."""

    def note(self, exchange: Exchange, response: Optional[Message], code: str) -> None:
        """A message was answered with this code in element 39, or got no response."""


class MessageHandler:
    """Handles the messages of all connections."""

    def __init__(
        self, figures: GatewayFigures, limited: Limited, ask: Ask, made_room: Callable[[], object] = lambda: None
    ) -> None:
        """`made_room` is called whenever a message in flight was answered."""
        self.figures, self.limited, self.ask, self.made_room = figures, limited, ask, made_room
        # Asks the account beside the host; without it the host alone is asked.
        self.order: Optional[AccountOrder] = None
        # Notes each message that was answered.
        self.log: Optional[AnswerLog] = None
        # Stores what is acknowledged; without it nothing is.
        self.advices: Optional[Advices] = None

    def take(self, peer: MessagePeer, message: Message, began: float) -> None:
        """Takes a message that was read."""
        what = mapping.what_to_do(message.kind)
        exchange = Exchange(peer, message, began)
        if what == mapping.DECLINE and self.advices and peer.dialect.advices.answer_to(message.kind):
            what = mapping.ACKNOWLEDGE
            self.acknowledge(exchange, self.advices)
        self.figures.add("messages", labels_of_what(what))
        if what == mapping.DECIDE:
            self.decide(exchange)
        elif what == mapping.ECHO:
            self.respond(exchange, responses.network_response(peer.dialect, message))
        elif what == mapping.DECLINE:
            self.settle(exchange, mapping.UNSUPPORTED)

    def refuse(self, peer: MessagePeer, message: Message, began: float, code: str, why: str) -> None:
        """Answers a message with a code of its dialect, and asks nobody."""
        exchange = Exchange(peer, message, began)
        exchange.why = why
        self.figures.count("messages", ("what", mapping.DECLINE))
        self.limited.tell(f"{exchange.name} is answered with {code}: {why}")
        self.respond(exchange, responses.response_to(peer.dialect, message, code))

    def unreadable(self, peer: MessagePeer, fault: Unreadable, began: float) -> None:
        """Takes a message that can't be read, or not as a whole."""
        self.figures.unreadable += 1
        if fault.so_far is None:
            self.limited.tell(f"a message of {peer.address} can't be read: {fault.why}")
            return
        exchange = Exchange(peer, fault.so_far, began)
        exchange.why = f"it can't be read: {fault.why}"
        self.limited.tell(f"{exchange.name} can't be read: {fault.why}")
        if mapping.what_to_do(fault.so_far.kind) != mapping.PASS_OVER:
            self.settle(exchange, mapping.BAD_FORMAT)

    def decide(self, exchange: Exchange) -> None:
        """Asks a host, if the message becomes a request line."""
        line = plans.line_of(exchange.peer.dialect, exchange.message, datetime.date.today)
        if not isinstance(line, RequestLine):
            exchange.why = line.why
            self.limited.tell(f"{exchange.name} is answered without a host: {line.why}")
            self.settle(exchange, line.outcome)
            return
        self.put(exchange, line)

    def put(self, exchange: Exchange, line: RequestLine) -> None:
        """Asks for a request line, if it wasn't reversed."""
        exchange.line = line
        self.hold(exchange)
        if self.advices and self.advices.memory.was_reversed(exchange.message, line.pan):
            self.refuse_reversed(exchange, self.advices)
            return
        if self.order is not None and not line.decline:
            self.authorise(exchange, line, self.order)
        else:
            self.ask(line, exchange.peer, exchange.began, lambda answer: self.answered(exchange, answer))

    def authorise(self, exchange: Exchange, line: RequestLine, order: AccountOrder) -> None:
        """Asks the account and the host."""
        dialect, source, began = exchange.peer.dialect, exchange.peer, exchange.began
        elements = elements_of(exchange.message, dialect.advices.elements)
        silent = mapping.NO_DECISION.code[dialect.edition]

        def then(result: Result) -> None:
            exchange.verdict = result.verdict.text
            exchange.why = "the account declines" if result.code else ""
            self.answered(exchange, result.answer, result.code)

        order.authorise(RequestOnItsWay(line, elements, dialect.declines, silent, source, began, then), self.ask)

    def answered(self, exchange: Exchange, answer: Optional[str], code: str = "") -> None:
        """A host's answer, or None if there was none. If the account declined by itself, there is its code."""
        exchange.answer = answer
        pan = exchange.line.pan if exchange.line is not None else ""
        if self.advices and answer is not None and self.advices.memory.was_reversed(exchange.message, pan):
            # (its reversal came while the host was asked)
            self.refuse_reversed(exchange, self.advices)
            return
        if code:
            self.respond(exchange, responses.response_to(exchange.peer.dialect, exchange.message, code))
        elif answer is None:
            self.settle(exchange, mapping.NO_DECISION)
        else:
            if answer.startswith(answers.REFUSED):
                self.limited.tell(f"{exchange.name}: {answer}")
            self.respond(exchange, plans.answered(exchange.peer.dialect, exchange.message, answer))
        self.let_go(exchange)

    def acknowledge(self, exchange: Exchange, advices: Advices) -> None:
        """Answers an advice or a reversal once it is stored."""
        peer, message = exchange.peer, exchange.message

        def stored(code: Optional[str]) -> None:
            if code is not None:
                self.respond(exchange, responses.response_to(peer.dialect, message, code))
            elif self.log is not None:
                exchange.why = "it can't be stored, and gets no response"
                self.log.note(exchange, None, "")
            self.let_go(exchange)

        self.hold(exchange)
        advices.acknowledge(peer.dialect, message, peer.address, stored)

    def refuse_reversed(self, exchange: Exchange, advices: Advices) -> None:
        """Approves no request that was reversed, and stores that it came."""
        peer = exchange.peer

        def stored(is_stored: bool) -> None:
            self.settle(exchange, mapping.REVERSED if is_stored else mapping.NO_DECISION)
            self.let_go(exchange)

        exchange.why = "it came after its reversal"
        self.limited.tell(f"{exchange.name} came after its reversal, and isn't approved")
        advices.note_late(peer.dialect, exchange.message, peer.address, stored)

    def hold(self, exchange: Exchange) -> None:
        self.figures.in_flight += 1
        exchange.peer.hold()

    def let_go(self, exchange: Exchange) -> None:
        self.figures.in_flight -= 1
        exchange.peer.let_go()
        self.made_room()

    def settle(self, exchange: Exchange, outcome: mapping.Outcome) -> None:
        self.respond(exchange, responses.settled(exchange.peer.dialect, exchange.message, outcome))

    def respond(self, exchange: Exchange, response: Message) -> None:
        code = exchange.peer.respond(response, exchange.began)
        if self.log is not None:
            self.log.note(exchange, response, code)
