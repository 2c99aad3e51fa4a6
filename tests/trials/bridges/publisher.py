"""A publisher that does what no publisher should, and a look at queues."""
import struct
import uuid
from collections.abc import Mapping
from types import TracebackType
from typing import Any, Optional

import pika

from issuer_host.broker import topology
from trials.bridges.private_broker import PrivateBroker

# Bits of the properties that a raw message has.
HEADERS, CORRELATION, REPLY_TO = 1 << 13, 1 << 10, 1 << 9
BASIC = 60


def short_text(text: str) -> bytes:
    return bytes([len(text)]) + text.encode()


def table_of(entries: bytes) -> bytes:
    return struct.pack(">I", len(entries)) + entries


def late_timestamp() -> bytes:
    """Returns headers with a timestamp past the year 9999."""
    return table_of(short_text("t") + b"T" + struct.pack(">Q", 400_000_000_000))


def nested_tables(depth: int) -> bytes:
    """Returns headers that are tables in tables."""
    found = table_of(b"")
    for _ in range(depth):
        found = table_of(short_text("t") + b"F" + found)
    return found


class RawProperties:
    """Properties with headers of any bytes."""

    INDEX = BASIC

    def __init__(self, headers: bytes, correlation: str, reply_to: str) -> None:
        self.headers = headers
        self.correlation_id = correlation
        self.reply_to = reply_to

    def encode(self) -> list[bytes]:
        flags = struct.pack(">H", HEADERS | CORRELATION | REPLY_TO)
        return [flags, self.headers, short_text(self.correlation_id), short_text(self.reply_to)]


class Publisher:
    """A connection of its own, with a reply queue that it reads or doesn't."""

    def __init__(self, private: PrivateBroker, url: Optional[str] = None) -> None:
        parameters = pika.URLParameters(url) if url else topology.parameters_of(private.url_file)
        self.connection = pika.BlockingConnection(parameters)
        self.channel: Any = self.connection.channel()
        self.queue = f"{topology.REPLY_PREFIX}{uuid.uuid4().hex}"

    def __enter__(self) -> "Publisher":
        return self

    def __exit__(
        self,
        kind: Optional[type[BaseException]],
        fault: Optional[BaseException],
        trace: Optional[TracebackType],
    ) -> None:
        if self.connection.is_open:
            self.connection.close()

    def declare_replies(self, **arguments: object) -> None:
        """Declares its reply queue, with the arguments that publishers have or others."""
        found: Mapping[str, object] = arguments or topology.REPLY_ARGUMENTS
        self.channel.queue_declare(self.queue, durable=True, arguments=found)
        self.channel.queue_bind(self.queue, topology.REPLIES, self.queue)

    def publish(self, partition: int, body: bytes, correlation: str = "", headers: bytes = b"") -> str:
        """Publishes a message, and returns its correlation id."""
        correlation = correlation or uuid.uuid4().hex
        properties: Any = pika.BasicProperties(delivery_mode=2, correlation_id=correlation, reply_to=self.queue)
        if headers:
            properties = RawProperties(headers, correlation, self.queue)
        self.channel.basic_publish(topology.REQUESTS, str(partition), body, properties)
        return correlation

    def depth(self, queue: str) -> int:
        """Returns how many messages of a queue wait for a consumer."""
        count: int = self.channel.queue_declare(queue, passive=True).method.message_count
        return count

    def replies(self, count: int, seconds: float) -> dict[str, str]:
        """Returns the answers of its reply queue by correlation id, as soon as there are so many."""
        found: dict[str, str] = {}
        for _, properties, body in self.channel.consume(self.queue, auto_ack=True, inactivity_timeout=seconds):
            if properties is None:
                break
            found[properties.correlation_id] = body.decode()
            if len(found) == count:
                break
        self.channel.cancel()
        return found
