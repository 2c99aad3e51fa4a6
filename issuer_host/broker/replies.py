"""Sends a partition's answers to their reply queues, and acknowledges their requests."""
import time
from collections.abc import Callable
from typing import Optional, Protocol

from issuer_host.broker import topology
from issuer_host.broker.connection import Confirm, Link
from issuer_host.broker.refusing_queues import RefusingQueues
from issuer_host.broker.reply_mac import ReplyMacs
from issuer_host.broker.unacknowledged import Delivered, Flight
from issuer_host.facts.limited import LimitedTelling
from issuer_host.facts.troubles import Level, say
from issuer_host.host.event_loop import Loop
from issuer_host.host.lines import Entry

# An answer that its reply queue refuses is sent again, so often, unless the queue refused others just before.
TRIES = 3
AGAIN_SECONDS = 0.2
# Why a message goes to the dead letters.
NO_REPLY_QUEUE = "it names no reply queue"
NO_REQUEST = "it is neither a line of the form A nor an account's decline"
# Of the name of a queue so many characters are told.
TOLD_NAME = 80


class ReplyFigures(Protocol):
    """Counts the answers, and what became of them at the broker."""

    def answered(self, answer: str, seconds: Optional[float]) -> None:
        ...

    def answer_returned(self) -> None:
        """Its reply queue was gone."""

    def answer_dropped(self) -> None:
        """Its reply queue refused it."""

    def body_refused(self) -> None:
        """A message went to the dead letters."""


class ReplySender:
    """The requests in flight of a connection, and their answers. `on_settled` is called after each request."""

    def __init__(
        self,
        loop: Loop,
        link: Link,
        macs: ReplyMacs,
        figures: ReplyFigures,
        on_settled: Callable[[], object],
        name: str,
    ) -> None:
        self.loop = loop
        self.link = link
        self.macs = macs
        self.figures = figures
        self.on_settled = on_settled
        self.log = LimitedTelling(lambda text: say(name, Level.WARNING, text))
        self.flight = Flight()
        self.deaf = RefusingQueues()

    def settle(self, entry: Delivered, is_acknowledged: bool) -> None:
        channel = self.link.channel
        if channel:
            self.flight.settle(entry, is_acknowledged, channel)
        self.on_settled()

    def is_current(self, entry: Entry) -> bool:
        """Whether an entry is still this connection's to answer."""
        return self.link.channel is not None and entry in self.flight

    def drop(self, entry: Entry) -> None:
        """No answer to a request comes any more: the broker delivers it again."""

    def send(self, entry: Entry, text: str, tries: int = TRIES) -> None:
        """Sends an answer. One that nobody takes is dropped: it is recorded, and asked again it is `kept`."""
        if not isinstance(entry, Delivered) or not self.is_current(entry):
            return
        self.publish(entry, text, tries)

    def publish(self, entry: Delivered, text: str, tries: int) -> None:
        def confirmed(how: Confirm) -> None:
            if how is Confirm.NACKED and tries > 1 and not self.deaf.has(entry.reply_to):
                self.loop.call_later(AGAIN_SECONDS, lambda: self.send(entry, text, tries - 1))
                return
            if how is Confirm.NACKED:
                self.drop_answer(entry)
            if how is Confirm.RETURNED:
                self.log.tell(f"an answer found no queue: {told(entry)} isn't bound to {topology.REPLIES} by its name")
                self.figures.answer_returned()
            self.figures.answered(text, time.monotonic() - entry.began)
            self.settle(entry, True)

        body = self.macs.sealed(entry.correlation, entry.line, text)
        self.link.publish(topology.REPLIES, entry.reply_to, body, entry.correlation, confirmed)

    def drop_answer(self, entry: Delivered) -> None:
        """Drops an answer that its reply queue refuses."""
        if not self.deaf.has(entry.reply_to):
            self.log.tell(f"a reply queue refused an answer: {told(entry)}")
        self.deaf.add(entry.reply_to)
        self.figures.answer_dropped()

    def refuse(self, entry: Delivered, why: str) -> None:
        """Sends a message to the dead letters."""
        whose = f", and is to be answered to {told(entry)}" if entry.reply_to else ""
        self.log.tell(f"a message of {len(entry.line)} bytes goes to {topology.DEAD}: {why}{whose}")
        self.figures.body_refused()
        self.settle(entry, False)


def told(entry: Delivered) -> str:
    """The name of a message's reply queue, as it is told."""
    return repr(str(entry.reply_to)[:TOLD_NAME])
