"""Messages of ISO 8583, and their bytes in a dialect."""

import functools
from collections.abc import Sequence
from dataclasses import dataclass, field
from typing import Optional, cast

from issuer_host.gateway import mapping
from issuer_host.gateway.dialect import BITMAP_ELEMENTS, Dialect, Format, LAST_ELEMENT, LinkHeader
from issuer_host.gateway.elements import SEPARATOR, TornElement, Value, reader_of, writer_of

__all__ = ("Codec", "Message", "SEPARATOR", "Unreadable", "Unwritable", "Value")

# The first digit of a type says its edition.
VERSION_OF = {"1987": "0", "1993": "1", "2003": "2"}
VERSIONS = tuple(VERSION_OF.values())
HALF = 64
# The first byte of a bitmap that another one follows, at the least.
HAS_SECOND = 0x80
# The messages of a peer have few different sets of elements: so many of them are remembered.
SETS = 256


@dataclass
class Message:
    """A message: its type in four digits, and its elements by number. Those of kind b are bytes, all others texts."""

    kind: str
    elements: dict[int, Value] = field(default_factory=dict)
    # The bytes of elements that are echoed, as they came.
    written: dict[int, bytes] = field(default_factory=dict, compare=False)
    # Of a request and its response: the bytes of the request's headers, as they came.
    header: bytes = field(default=b"", compare=False)

    @property
    def code(self) -> str:
        """Element 39, which each response has."""
        return str(self.elements[mapping.CODE])


class Unreadable(Exception):
    """Bytes that are no message, why, and from which byte on.

    `so_far` is what was read before, if its type and bitmaps were.
    """

    def __init__(
        self, why: str, so_far: Optional[Message] = None, is_of_other_edition: bool = False, at: int = 0
    ) -> None:
        super().__init__(why)
        self.why, self.so_far, self.is_of_other_edition, self.at = why, so_far, is_of_other_edition, at


class Unwritable(Exception):
    """A message that the dialect can't express, and why."""


class Codec:
    """Reads and writes the messages of a dialect."""

    def __init__(self, dialect: Dialect) -> None:
        self.dialect = dialect
        self.version = VERSION_OF[dialect.edition]
        self.readers = {number: reader_of(form) for number, form in dialect.formats.items()}
        self.writers = {number: writer_of(form) for number, form in dialect.formats.items()}
        self.read_kind, self.write_kind = reader_of(dialect.kind), writer_of(dialect.kind)
        self.read_bits = reader_of(Format("b", 8, hexadecimal=dialect.bitmaps))
        self.echoed = frozenset(dialect.echo)
        self.header_bytes = dialect.header_bytes

    def unpack(self, data: bytes) -> Message:
        """The message of a frame, or Unreadable."""
        try:
            at = self.header_bytes
            if at:
                check_headers(self.dialect.headers, data)
            read, at = self.read_kind(data, at)
            kind = str(read)
            if kind[0] != self.version:
                said = f"its type is {kind!r}, which isn't of {self.dialect.edition}"
                raise Unreadable(said, is_of_other_edition=kind[0] in VERSIONS)
            numbers, at = self.read_bitmaps(data, at)
        except TornElement as why:
            raise Unreadable(str(why)) from why
        message = Message(kind, header=data[: self.header_bytes])
        if BITMAP_ELEMENTS[1] in numbers:
            raise Unreadable("it announces a third bitmap", message)
        for number in numbers:
            reader = self.readers.get(number)
            try:
                if reader is None:
                    raise TornElement("the dialect has no such element")
                message.elements[number], end = reader(data, at)
            except TornElement as why:
                raise Unreadable(f"element {number}: {why}", message, at=at) from why
            if number in self.echoed:
                message.written[number] = data[at:end]
            at = end
        if at != len(data):
            raise Unreadable("more follows the last element", message, at=at)
        return message

    def read_bitmaps(self, data: bytes, at: int) -> tuple[Sequence[int], int]:
        """The numbers of the elements that follow."""
        first, at = self.read_bits(data, at)
        bits = cast(bytes, first)
        if bits[0] >= HAS_SECOND:
            second, at = self.read_bits(data, at)
            bits += cast(bytes, second)
        return numbers_of(bits), at

    def pack(self, message: Message) -> bytes:
        """The bytes of a message; Unwritable if an element isn't of the dialect's format."""
        numbers = tuple(sorted(message.elements))
        bitmap, codec = bitmap_of(numbers), self.dialect.bitmaps
        parts = [self.write_kind(message.kind), bitmap if codec is None else bitmap.hex().upper().encode(codec)]
        for number in numbers:
            written = message.written.get(number)
            parts.append(self.write(number, message.elements[number]) if written is None else written)
        if self.header_bytes:
            parts.insert(0, written_headers(self.dialect.headers, message.header))
        return b"".join(parts)

    def write(self, number: int, value: Value) -> bytes:
        writer = self.writers.get(number)
        try:
            if writer is None:
                raise TornElement("the dialect has no such element")
            return writer(value)
        except TornElement as why:
            raise Unwritable(f"element {number}: {why}") from why


# Bitmaps


@functools.lru_cache(SETS)
def numbers_of(bitmap: bytes) -> tuple[int, ...]:
    """The numbers of the elements that a bitmap names, itself left out."""
    bits, count = int.from_bytes(bitmap, "big"), 8 * len(bitmap)
    return tuple(number for number in range(2, count + 1) if bits >> (count - number) & 1)


@functools.lru_cache(SETS)
def bitmap_of(numbers: tuple[int, ...]) -> bytes:
    """The bitmap of these elements, in their order; of 16 bytes if one of them is above 64."""
    bits = sum(1 << (LAST_ELEMENT - number) for number in numbers)
    if numbers and numbers[-1] > HALF:
        return (bits | 1 << (LAST_ELEMENT - 1)).to_bytes(16, "big")
    return bits.to_bytes(16, "big")[:8]


# Headers


def check_headers(headers: tuple[LinkHeader, ...], data: bytes) -> None:
    """Refuses bytes that don't begin with these headers."""
    at = 0
    for header in headers:
        piece = data[at : at + header.size]
        if len(piece) != header.size:
            raise TornElement("its header isn't whole")
        if header.begins is not None and piece[0] >> 4 != header.begins:
            raise TornElement(f"its header begins with {piece[0]:02X}, and has to begin with {header.begins:X}0")
        at += header.size


def written_headers(headers: tuple[LinkHeader, ...], asked: bytes) -> bytes:
    """The headers of a response, by those of its request; without any, those of the gateway's own messages."""
    if not asked:
        return b"".join(header.own for header in headers)
    parts, at = [], 0
    for header in headers:
        piece = asked[at : at + header.size]
        at += header.size
        if header.exchanged is not None:
            first, second, size = header.exchanged
            other = bytearray(piece)
            other[first : first + size], other[second : second + size] = (
                piece[second : second + size],
                piece[first : first + size],
            )
            piece = bytes(other)
        parts.append(piece if header.answer is None else header.answer)
    return b"".join(parts)
