"""The channel by which a machine writes to a stream.

A confirm says nothing: the broker may confirm a message and lose it. What doesn't come back by reading is written
again, by whoever wrote it, on a new channel: what is on its way on the old one may be lost, or may come late.
"""
import collections
from collections.abc import Callable
from typing import Any, Optional

import pika

from issuer_host.broker import topology
from issuer_host.broker.types import Channel
from issuer_host.replication.channels import close, is_usable
from issuer_host.replication.message_mac import MessageMacs

WRITTEN = pika.BasicProperties(delivery_mode=2, content_type="text/plain")
# What a person does.
DECLARE = "run deploy/queues --streams"


class StreamWriter:
    """Signs messages and writes them, by one connection after another."""

    def __init__(
        self,
        macs: MessageMacs,
        on_fault: Callable[[str], object],
        on_close: Callable[[Channel, Exception], None],
    ) -> None:
        """`on_fault` gets what the broker says of a message, and `on_close` the channel that it closed."""
        self.macs = macs
        self.on_fault = on_fault
        self.on_close = on_close
        self.connection: Any = None
        self.channel: Optional[Channel] = None
        # What is written once the channel is open.
        self.unwritten: collections.deque[bytes] = collections.deque()
        self.is_open = False

    def open(self, connection: Any) -> None:
        self.connection = connection
        self.open_channel()

    def lost(self) -> None:
        """The connection is lost, with what wasn't written."""
        self.connection = None
        self.forget()
        self.unwritten.clear()

    def write(self, text: str) -> None:
        """Signs and writes a message. It may come late, or never."""
        self.unwritten.append(self.macs.signed(text))
        self.flush()

    def write_by(self, key: bytes, text: str) -> None:
        """Writes a message that another one of the cluster's keys signs."""
        self.unwritten.append(self.macs.signed_by(key, text))
        self.flush()

    def flush(self) -> None:
        while self.is_open and self.unwritten and self.channel is not None and is_usable(self.connection):
            body = self.unwritten.popleft()
            self.channel.basic_publish(topology.RECORDS, self.macs.stream, body, WRITTEN, mandatory=True)

    def begin_anew(self) -> None:
        """Leaves the channel for another one: what is on its way may be lost."""
        channel = self.channel
        self.forget()
        self.unwritten.clear()
        if channel is not None and is_usable(self.connection):
            close(channel)
        self.open_channel()

    def forget(self) -> None:
        """The channel is closed, or left."""
        self.channel, self.is_open = None, False

    def open_channel(self) -> None:
        def opened(channel: Channel) -> None:
            self.channel = channel
            channel.add_on_close_callback(self.on_close)
            said = f"no stream {self.macs.stream} is bound: {DECLARE}"
            channel.add_on_return_callback(lambda *_: self.on_fault(said))
            # (without confirms the broker wouldn't write again, to a new leader, what the old one hadn't taken)
            channel.confirm_delivery(lambda _: None, callback=lambda _: ready(channel))

        def ready(channel: Channel) -> None:
            if channel is self.channel:
                self.is_open = True
                self.flush()

        if is_usable(self.connection):
            self.connection.channel(on_open_callback=opened)
