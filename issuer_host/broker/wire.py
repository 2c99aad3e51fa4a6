"""What is read of a message: the properties that are used, and its body up to a limit. And how messages are sent.

`pika` decodes all headers of a message before anybody sees it, and closes the connection at one that it doesn't like:
the broker would deliver that message again, for ever. Nothing here uses a header but the offset of a stream's message,
so no other is decoded. A body is kept in memory only as far as a request line, or a stream's message, can be long. Its
lines for debugging are left out. It also sends each message by a system call of its own; here one
call sends all that wait.
"""
import logging
import struct
from collections import deque
from collections.abc import Iterable
from typing import Any, Optional, Union

import pika
from pika.adapters.utils import io_services_utils

# The number of the class of messages in AMQP 0-9-1.
BASIC = 60
# Bytes of a body that are kept.
KEPT = 4096
# The most bytes of several messages that one call sends.
SENT = 65_536
# The properties of a message in their order, by the bit that says whether it is there, and how each is laid out.
SHORT, TABLE, BYTE = "short", "table", "byte"
LAYOUT = (
    (1 << 15, "content_type", SHORT),
    (1 << 14, "content_encoding", SHORT),
    (1 << 13, "headers", TABLE),
    (1 << 12, "delivery_mode", BYTE),
    (1 << 11, "priority", BYTE),
    (1 << 10, "correlation_id", SHORT),
    (1 << 9, "reply_to", SHORT),
    (1 << 8, "expiration", SHORT),
    (1 << 7, "message_id", SHORT),
)
# A second word of flags follows.
MORE_FLAGS = 1
# The headers of a stream's message that was written without any: its offset alone, a number of eight bytes.
OFFSET, NUMBER, NUMBER_BYTES = b"x-stream-offset", b"l", 8
OFFSET_HEAD = bytes([len(OFFSET)]) + OFFSET + NUMBER
# Bytes of a header's value by its type. A value of another type begins with its length, in four bytes.
VALUE_BYTES = {b"V": 0, b"D": 5, **dict.fromkeys((b"t", b"b", b"B"), 1), **dict.fromkeys((b"s", b"u"), 2)}
VALUE_BYTES.update({**dict.fromkeys((b"I", b"i", b"f"), 4), **dict.fromkeys((NUMBER, b"L", b"d", b"T"), NUMBER_BYTES)})
# (bytes if they aren't UTF-8)
Text = Union[str, bytes]


class UsedProperties:
    """A message's properties that are used."""

    INDEX = BASIC

    def __init__(self) -> None:
        self.correlation_id: Optional[Text] = None
        self.reply_to: Optional[Text] = None
        self.message_id: Optional[Text] = None
        # The headers, as they came.
        self.headers = b""

    @property
    def stream_offset(self) -> Optional[int]:
        """Where in a stream the message is; None if it is of no stream."""
        return offset_of(self.headers)

    @property
    def has_headers(self) -> bool:
        """Whether the message was written with headers. (A stream's message has its offset as one besides.)"""
        return bool(self.headers) and not is_offset_alone(self.headers)

    def decode(self, encoded: bytes, offset: int = 0) -> "UsedProperties":
        """Takes what is used of the encoded properties. Properties that end too early are those before their end."""
        try:
            self.take(encoded, offset)
        except (struct.error, IndexError):
            pass
        return self

    def take(self, encoded: bytes, at: int) -> None:
        (flags,) = struct.unpack_from(">H", encoded, at)
        at += 2
        more = flags
        while more & MORE_FLAGS:
            (more,) = struct.unpack_from(">H", encoded, at)
            at += 2
        for bit, name, layout in LAYOUT:
            if not flags & bit:
                continue
            begin, at = span_of(encoded, at, layout)
            if layout == TABLE:
                self.headers = encoded[begin:at]
            elif name in vars(self):
                setattr(self, name, text_of(encoded[begin:at]))


def span_of(encoded: bytes, at: int, layout: str) -> tuple[int, int]:
    """Returns where a property's value begins and ends."""
    if layout == BYTE:
        return at, at + 1
    if layout == SHORT:
        return at + 1, at + 1 + encoded[at]
    (length,) = struct.unpack_from(">I", encoded, at)
    return at + 4, at + 4 + length


def is_offset_alone(table: bytes) -> bool:
    return len(table) == len(OFFSET_HEAD) + NUMBER_BYTES and table.startswith(OFFSET_HEAD)


def offset_of(table: bytes) -> Optional[int]:
    """Returns the offset of a stream's message by its headers; None if they have none, or end too early."""
    at = 0
    try:
        while at < len(table):
            name, kind, at, end = header_at(table, at)
            if name == OFFSET and kind == NUMBER:
                return int.from_bytes(table[at:end], "big")
            at = end
    except (struct.error, IndexError):
        pass
    return None


def header_at(table: bytes, at: int) -> tuple[bytes, bytes, int, int]:
    """Returns a header's name and type, and where its value begins and ends. What is in the value isn't decoded."""
    begin = at + 1 + table[at]
    name, kind = table[at + 1 : begin], table[begin : begin + 1]
    if kind in VALUE_BYTES:
        return name, kind, begin + 1, begin + 1 + VALUE_BYTES[kind]
    (length,) = struct.unpack_from(">I", table, begin + 1)
    return name, kind, begin + 5, begin + 5 + length


def text_of(value: bytes) -> Text:
    try:
        return value.decode("utf-8")
    except UnicodeDecodeError:
        return value


class ShortBodies:
    """Puts a message's frames together, as `pika` does, and keeps the beginning of its body alone."""

    def __init__(self, kept: int = KEPT) -> None:
        self.kept = kept
        self.method: Any = None
        self.header: Any = None
        self.seen = 0
        self.body = b""

    def process(self, frame: Any) -> Optional[tuple[Any, Any, bytes]]:
        """Takes a frame. Returns the message if it was the last one."""
        if isinstance(frame, pika.frame.Header):
            self.header = frame
            self.seen = 0
            self.body = b""
        elif isinstance(frame, pika.frame.Body):
            self.seen += len(frame.fragment)
            self.body += frame.fragment[: self.kept - len(self.body)]
        else:
            self.method = frame
            return None
        if self.seen < self.header.body_size:
            return None
        return self.method, self.header, self.body


def decode_no_headers() -> None:
    """Has all connections of this process take what is used of a message's properties alone."""
    pika.spec.props[BASIC] = UsedProperties


def keep_short_bodies(channel: Any, kept: int = KEPT) -> None:
    """Has a channel keep the beginnings of bodies alone. (`pika` has no other place for it.)"""
    if hasattr(channel, "_content_assembler"):
        channel._content_assembler = ShortBodies(kept)


def leave_debugging_out() -> None:
    """Has `pika` prepare no lines for debugging, some forty a request, that nobody reads."""

    def says_nothing(*_: object, **__: object) -> None:
        pass

    for name in list(logging.root.manager.loggerDict):
        logger = logging.getLogger(name)
        if name.startswith(f"{pika.__name__}.") and not logger.isEnabledFor(logging.DEBUG):
            vars(logger)["debug"] = says_nothing


def joined(pieces: Iterable[bytes], limit: int = SENT) -> "deque[bytes]":
    """Joins neighbouring pieces as far as they don't exceed the limit. A longer piece stays as it is."""
    groups: list[list[bytes]] = []
    size = 0
    for piece in pieces:
        if not groups or size + len(piece) > limit:
            groups.append([])
            size = 0
        groups[-1].append(piece)
        size += len(piece)
    return deque(map(b"".join, groups))


def send_joined() -> None:
    """Has all connections of this process send by one call what waits. (`pika` has no other place for it.)"""
    transport: Any = vars(io_services_utils).get("_AsyncTransportBase")
    one_by_one: Any = getattr(transport, "_produce", None)
    if one_by_one is None or one_by_one.__module__ == __name__:
        return

    def produce(self: Any) -> None:
        if len(self._tx_buffers) > 1:
            self._tx_buffers = joined(self._tx_buffers)
        one_by_one(self)

    transport._produce = produce
