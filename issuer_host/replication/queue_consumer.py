"""A machine's place in the line of consumers of a partition's queue, and the requests that are delivered to it."""
import time
from typing import Protocol

from issuer_host.broker import topology
from issuer_host.broker.connection import Link
from issuer_host.broker.replies import ReplyFigures, ReplySender
from issuer_host.broker.reply_mac import ReplyMacs
from issuer_host.broker.types import Channel, Delivery, Properties, Step
from issuer_host.broker.unacknowledged import Delivered, entry_of
from issuer_host.host.event_loop import Loop
from issuer_host.replication.node_file import NodeSettings
from issuer_host.replication.node_stops import StepGuard
from issuer_host.replication.state_teller import REASON

# What has the node begin that the queue delivers to. It is no request: a publisher can't write it to where it counts.
WAKE = b"wake"
# So soon a node sees that its broker is gone.
HEARTBEAT = 4


class RequestTaker(Protocol):
    """Who has a consumer's connection and its requests."""

    def connected(self, channel: Channel) -> None:
        """The connection is there."""

    def disconnected(self, why: str) -> None:
        """The connection is lost: what was delivered is delivered again, here or elsewhere."""

    def delivered(self, entry: Delivered) -> None:
        """A request came: the queue delivers here from now on."""

    def called(self) -> None:
        """The queue delivers here, and what came is no request."""


class QueueConsumer:
    """A partition's connection, and its consumer once it has one. `replies` sends the answers."""

    def __init__(
        self, loop: Loop, node: NodeSettings, number: int, figures: ReplyFigures, guard: StepGuard, taker: RequestTaker
    ) -> None:
        self.loop, self.number, self.window = loop, number, node.window
        self.guard, self.taker = guard, taker
        self.queue = topology.queue_of(number)
        parameters = topology.parameters_of(node.broker_file)
        parameters.heartbeat = HEARTBEAT
        self.link = Link(loop, parameters, self.steps_of, self.opened, self.lost)
        macs = ReplyMacs(node.broker_file)
        self.replies = ReplySender(loop, self.link, macs, figures, lambda: None, f"node: partition {number}")
        self.tag = ""
        # Before this time nothing begins, though there is a connection.
        self.not_before = 0.0

    @property
    def is_connected(self) -> bool:
        return self.link.channel is not None

    def open(self) -> None:
        self.link.open()

    def steps_of(self, channel: Channel) -> "list[Step]":
        return topology.find_partition(channel, self.number)

    def opened(self, channel: Channel) -> None:
        wait = self.not_before - time.monotonic()
        if wait <= 0:
            self.guard.take(lambda: self.begin(channel))
        else:
            self.loop.call_later(wait, lambda: self.opened(channel) if self.link.channel is channel else None)

    def begin(self, channel: Channel) -> None:
        channel.basic_qos(prefetch_count=self.window)
        self.taker.connected(channel)

    def lost(self, reason: Exception) -> None:
        self.forget()
        self.guard.take(lambda: self.taker.disconnected(str(reason)))

    def stand_in_line(self) -> None:
        """Stands in the line of the queue's consumers, at its end, and wakes who is the first there."""
        channel = self.link.channel
        if channel is None:
            return
        if self.tag:
            self.link.begin_anew("another machine serves the partition")
            return
        self.tag = channel.basic_consume(self.queue, self.take)
        self.wake()

    def wake(self) -> None:
        if self.link.channel is not None:
            self.link.wake(topology.RECORDS, self.queue, WAKE)

    def take(self, _: Channel, delivery: Delivery, properties: Properties, body: bytes) -> None:
        entry = entry_of(delivery, properties, body)
        self.replies.flight.add(entry)
        self.guard.take(lambda: self.deliver(entry))

    def deliver(self, entry: Delivered) -> None:
        if entry.line == WAKE and not entry.reply_to:
            self.replies.settle(entry, True)
            self.taker.called()
        else:
            self.taker.delivered(entry)

    def refuse(self, entry: Delivered, why: str) -> None:
        """Gives a message that is no request to the dead letters."""
        self.replies.refuse(entry, why)

    def unsettled(self) -> "list[Delivered]":
        """Returns the requests in flight that have no answer, in the order of delivery."""
        return [entry for entry in self.replies.flight.entries if entry.settled is None]

    def forget(self) -> None:
        """Forgets the consumer and the requests in flight: who asked asks again."""
        self.tag = ""
        self.replies.flight.clear()

    def begin_anew(self, why: str) -> None:
        """Closes the connection, so that another machine may serve, and opens it again."""
        self.link.begin_anew(why[:REASON])

    def close(self) -> None:
        self.link.close(lambda: None)
