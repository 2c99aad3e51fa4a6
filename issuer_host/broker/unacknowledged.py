"""The requests that the broker delivered and that aren't acknowledged, in the order of delivery."""
import collections
from typing import NamedTuple, Optional

from issuer_host.broker.types import Channel, Delivery, Properties
from issuer_host.broker.wire import KEPT
from issuer_host.host.lines import Entry


class Delivered(Entry):
    """A request that a message brought."""

    __slots__ = ("tag", "reply_to", "correlation", "settled")

    def __init__(self, tag: int, line: bytes, reply_to: str, correlation: str) -> None:
        super().__init__(line)
        self.tag = tag
        self.reply_to = reply_to
        self.correlation = correlation
        # None until it may be acknowledged (True) or rejected (False).
        self.settled: Optional[bool] = None


def entry_of(delivery: Delivery, properties: Properties, body: bytes) -> Delivered:
    """Returns the request that a message brought."""
    return Delivered(delivery.delivery_tag, line_of(body), properties.reply_to or "", properties.correlation_id)


def line_of(body: bytes) -> bytes:
    """Returns the line of a body, or the lines of an account's decline, without a last newline.

    A body that is as long as what is kept of one may have more bytes than these: it is no line.
    """
    return body[:-1] if body.endswith(b"\n") and len(body) < KEPT else body


class Settlement(NamedTuple):
    """What the broker is told: all up to a delivery are acknowledged, or that one is rejected."""

    tag: int
    is_acknowledged: bool


class Flight:
    """The requests in flight. What is delivered again is always all from some request on."""

    def __init__(self) -> None:
        self.entries: collections.deque[Delivered] = collections.deque()

    def __len__(self) -> int:
        return len(self.entries)

    def __contains__(self, entry: object) -> bool:
        return entry in self.entries

    def add(self, entry: Delivered) -> None:
        self.entries.append(entry)

    def clear(self) -> None:
        self.entries.clear()

    def age(self, now: float) -> float:
        """Returns how old the oldest request is, or 0."""
        return now - self.entries[0].began if self.entries else 0.0

    def settle(self, entry: Delivered, is_acknowledged: bool, channel: Channel) -> None:
        """Settles a request, and tells the broker of those that are settled with all before them."""
        entry.settled = is_acknowledged
        for settlement in self.settlements():
            if settlement.is_acknowledged:
                channel.basic_ack(settlement.tag, multiple=True)
            else:
                channel.basic_reject(settlement.tag, requeue=False)

    def settlements(self) -> list[Settlement]:
        """Takes the settled requests from the front."""
        found: list[Settlement] = []
        while self.entries and self.entries[0].settled is not None:
            first = self.entries.popleft()
            if first.settled and found and found[-1].is_acknowledged:
                found[-1] = Settlement(first.tag, True)
            else:
                found.append(Settlement(first.tag, bool(first.settled)))
        return found
