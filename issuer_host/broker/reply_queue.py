"""The queue in which a publisher gets its answers: one of those that its user may declare, and that nobody else reads.

The names are of a user and of a number below 64. So a publisher can't take the queues of all, and its user's
permissions say which ones are its own.
"""
from typing import Any

from issuer_host.broker import topology
from issuer_host.broker.types import Callback, Channel, OnMessage, Step


class ReplyQueue:
    """The reply queue of one publisher, by which number it was last read, or is tried next."""

    def __init__(self, user: str, number: int) -> None:
        self.user, self.number = user, number % topology.REPLY_QUEUES
        # Whether the broker gives this publisher its messages.
        self.is_read = False

    @property
    def name(self) -> str:
        return topology.reply_queue(self.user, self.number)

    def steps_of(self, channel: Channel) -> list[Step]:
        """Steps that find a queue without a reader, and bind it."""
        return [lambda then: self.find(channel, then, topology.REPLY_QUEUES), lambda then: self.bind(channel, then)]

    def find(self, channel: Channel, then: Callback, tries: int) -> None:
        def declared(frame: Any) -> None:
            if frame.method.consumer_count and tries > 1:
                self.take_next()
                self.find(channel, then, tries - 1)
            else:
                then(frame)

        arguments = topology.REPLY_ARGUMENTS
        channel.queue_declare(self.name, durable=True, arguments=arguments, callback=declared)

    def bind(self, channel: Channel, then: Callback) -> None:
        channel.queue_bind(self.name, topology.REPLIES, self.name, callback=then)

    def read(self, channel: Channel, take: OnMessage) -> None:
        """Reads it alone. If another reader came in between, the broker closes the channel."""

        def begun(_: object) -> None:
            self.is_read = True

        channel.basic_consume(self.name, take, auto_ack=True, exclusive=True, callback=begun)

    def lost(self) -> None:
        """The connection was lost. A queue that couldn't be read isn't tried again first."""
        if not self.is_read:
            self.take_next()
        self.is_read = False

    def take_next(self) -> None:
        self.number = (self.number + 1) % topology.REPLY_QUEUES
