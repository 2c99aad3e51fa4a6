"""One partition's stream at the broker: what is read of it, and beside that what is written to it (`stream_writer`).

Only what is read back is there. Reading has a channel of its own, and is ended by closing that: a stream bears no
other end. A reader may stand still for ever after a stream's leader went: who hears nothing for a while reads on by a
new one.

Each reading begins with the message that was read last, which has to be the same. So a stream that lost its end, was
made anew, or doesn't reach back so far is noticed.

A message that no node of the cluster wrote counts nowhere: it is passed over, whoever reads it. Two of the messages
have to be a node's: the first one of the stream, and the one that a position names. So a machine that lacks the
cluster's key is noticed before it takes anything.
"""
import collections
import uuid
from collections.abc import Callable
from typing import Any, NamedTuple, Optional

from issuer_host.broker import topology
from issuer_host.broker.types import Channel, Delivery, Properties
from issuer_host.broker.wire import keep_short_bodies
from issuer_host.facts.refusal import Refusal
from issuer_host.host.event_loop import Loop
from issuer_host.replication.channels import close, is_usable
from issuer_host.replication.message_mac import MessageMacs
from issuer_host.replication.messages import Mark, MessageFault, text_of
from issuer_host.replication.own_records import ANEW
from issuer_host.replication.positions import BEFORE, digest_of, first_text
from issuer_host.replication.stream_writer import StreamWriter

# Messages that the broker sends before the first one of them is acknowledged, and so many are acknowledged together.
PREFETCH, TOGETHER = 50, 20
# A channel that the broker closed is opened again after so long: a node that just started lacks its copy for a while.
AGAIN_SECONDS = 0.5
FIRST, LAST = "first", "last"
# Bytes of a reason that the broker gives.
REASON = 160
# What a person does.
COPY = "copy another machine's journals by deploy/node --copy"
KEY = (
    "give this machine the cluster's keys, or begin a stream anew that was written without them;"
    " docs/operate/three-machines.md has"
    ' both, in "The cluster\'s key"'
)


class Place(NamedTuple):
    """The offset of the message that was read last and its digest, or those of what a stream begins with."""

    offset: int
    digest: str


class StreamDelivery(NamedTuple):
    """A message that was delivered and isn't read."""

    tag: int
    offset: int
    body: bytes
    has_headers: bool = False


class Taken(NamedTuple):
    """A message that was read: the text that a node wrote, or why it counts nowhere."""

    offset: int
    text: Optional[str]
    why: str = ""


class Stream:
    """A stream of one connection after another. `on_more` is called when there is something to read."""

    def __init__(
        self,
        loop: Loop,
        macs: MessageMacs,
        place: Place,
        on_more: Callable[[], object],
        on_fault: Callable[[str], object],
    ) -> None:
        self.loop = loop
        self.macs = macs
        self.name = macs.stream
        self.on_more = on_more
        # Gets why a channel was closed; it is opened again.
        self.on_fault = on_fault
        # The message that was read last, and the last one of a node.
        self.place = place
        self.signed = place
        self.connection: Any = None
        self.writer = StreamWriter(macs, on_fault, self.closed)
        self.reading: Optional[Channel] = None
        self.unread: collections.deque[StreamDelivery] = collections.deque()
        # How many messages that were read aren't acknowledged.
        self.unacknowledged = 0
        # The keys of others by which this one's was named.
        self.named: list[bytes] = []
        # Whether the message that was read last was found again.
        self.is_compared = False

    # One connection after another

    def open(self, connection: Any) -> None:
        self.connection = connection
        self.writer.open(connection)
        self.open_reading()

    def lost(self) -> None:
        """The connection is lost. What wasn't written is written again by who wrote it."""
        self.connection = None
        self.writer.lost()
        self.reading = None
        self.unread.clear()
        self.named.clear()

    # Reading

    def open_reading(self) -> None:
        """Reads on, from the message that was read last."""
        self.unread.clear()
        self.unacknowledged = 0
        self.is_compared = False
        start = FIRST if self.place.offset == BEFORE else self.place.offset

        def opened(channel: Channel) -> None:
            self.reading = channel
            keep_short_bodies(channel, topology.MAX_MESSAGE + 1)
            channel.add_on_close_callback(self.closed)
            channel.add_on_cancel_callback(lambda _: self.closed(channel, Exception("the stream is gone")))
            channel.basic_qos(prefetch_count=PREFETCH)
            channel.basic_consume(self.name, self.delivered, arguments={"x-stream-offset": start})

        if is_usable(self.connection):
            self.connection.channel(on_open_callback=opened)

    def read_anew(self) -> None:
        """Leaves the channel for another one: the broker may deliver nothing more on it, without a word."""
        channel, self.reading = self.reading, None
        if channel is not None and is_usable(self.connection):
            close(channel)
        self.open_reading()

    def delivered(self, channel: Channel, delivery: Delivery, properties: Properties, body: bytes) -> None:
        if channel is self.reading:
            offset = BEFORE if properties.stream_offset is None else properties.stream_offset
            self.unread.append(StreamDelivery(delivery.delivery_tag, offset, body, properties.has_headers))
            self.on_more()

    def next(self) -> Optional[Taken]:
        """Takes the next message, if there is one. Refuses a stream that isn't the one that was read before."""
        while self.unread:
            delivered = self.unread.popleft()
            self.acknowledge(delivered.tag)
            if self.place.offset == BEFORE:
                self.check_first(delivered)
            elif not self.is_compared:
                self.compare(delivered)
                continue
            return self.take(delivered)
        return None

    def take(self, delivered: StreamDelivery) -> Taken:
        """Reads a message. Refuses one that says that this machine lacks a key."""
        place = self.place if delivered.offset == BEFORE else Place(delivered.offset, digest_of(delivered.body))
        try:
            text = self.text_of(delivered)
        except MessageFault as fault:
            self.place = place
            return Taken(delivered.offset, None, str(fault))
        if self.macs.lacks_key_of(text):
            raise Refusal(f"message {delivered.offset} of {self.name} names a key that isn't here; {KEY}")
        self.place = self.signed = place
        self.name_key(delivered.body)
        return Taken(delivered.offset, text)

    def name_key(self, body: bytes) -> None:
        """Names the key that signs here, by that of a message which another key signed, once a connection.

        (By its own key as well: what a position names at last is a message that the new key signed.)
        """
        key = self.macs.key_of(body) if len(self.macs.keys) > 1 else None
        if key is not None and key not in (self.macs.keys[0], *self.named):
            self.named.append(key)
            text = text_of(self.macs.key_mark())
            self.writer.write_by(key, text)
            self.writer.write(text)

    def text_of(self, delivered: StreamDelivery) -> str:
        """Returns what a node wrote. A message that no node wrote is a MessageFault."""
        return self.macs.read(delivered.body, delivered.has_headers)

    def acknowledge(self, tag: int) -> None:
        self.unacknowledged += 1
        if self.unacknowledged >= TOGETHER and self.reading is not None and is_usable(self.connection):
            self.unacknowledged = 0
            self.reading.basic_ack(tag, multiple=True)

    def check_first(self, delivered: StreamDelivery) -> None:
        """Refuses a stream that doesn't begin with what a node writes there, of the journals that are here."""
        if delivered.offset != 0:
            raise Refusal(f"{self.name} doesn't reach back to its beginning, but to message {delivered.offset}: {COPY}")
        try:
            first = self.text_of(delivered)
        except MessageFault as fault:
            raise Refusal(f"the first message of {self.name} is of no node that has a key of here: {fault}; {KEY}")
        if first != first_text(self.place.digest):
            raise Refusal(
                f"{self.name} begins with other journals than those here: all machines begin with the same ones, or"
                f" {COPY}"
            )
        self.is_compared = True

    def compare(self, delivered: StreamDelivery) -> None:
        """Finds the message again that was read last."""
        offset = delivered.offset
        if offset > self.place.offset:
            raise Refusal(
                f"{self.name} doesn't reach back to message {self.place.offset}, which was read last, but to {offset}:"
                f" {COPY}"
            )
        if offset < self.place.offset or digest_of(delivered.body) != self.place.digest:
            raise Refusal(
                f"message {offset} of {self.name} isn't the one that was read: the stream lost its end, or was made"
                f" anew; {ANEW}"
            )
        try:
            if self.place == self.signed:
                self.text_of(delivered)
                self.name_key(delivered.body)
        except MessageFault as fault:
            raise Refusal(f"message {offset} of {self.name} is of no node that has a key of here: {fault}; {KEY}")
        self.is_compared = True

    def probe(self) -> None:
        """Looks for the stream's end, if the message that was read last doesn't come."""
        text = text_of(Mark(uuid.uuid4().hex))
        sought = self.macs.signed(text)

        def opened(channel: Channel) -> None:
            keep_short_bodies(channel, topology.MAX_MESSAGE + 1)
            channel.basic_qos(prefetch_count=PREFETCH)
            channel.basic_consume(self.name, delivered, arguments={"x-stream-offset": LAST})
            self.writer.write(text)

        def delivered(channel: Channel, delivery: Delivery, properties: Properties, body: bytes) -> None:
            channel.basic_ack(delivery.delivery_tag)
            if body != sought:
                return
            close(channel)
            offset = properties.stream_offset
            if not self.is_compared and offset is not None and offset <= self.place.offset:
                self.unread.clear()
                self.unread.append(StreamDelivery(0, offset, body))
                self.reading = None
                self.on_more()

        if is_usable(self.connection):
            self.connection.channel(on_open_callback=opened)

    # Ends of channels

    def closed(self, channel: Channel, reason: Exception) -> None:
        """Opens a channel again that the broker closed."""
        connection = self.connection
        if channel is self.writer.channel:
            self.writer.forget()
        elif channel is self.reading:
            self.reading = None
            self.unread.clear()
        else:
            return

        def again() -> None:
            if connection is self.connection and self.writer.channel is None:
                self.writer.open_channel()
            if connection is self.connection and self.reading is None:
                self.open_reading()

        if is_usable(self.connection):
            self.on_fault(str(reason)[:REASON])
            self.loop.call_later(AGAIN_SECONDS, again)
