"""The records of a clearing file: each with its length before it, perhaps in blocks of fixed size."""

from collections.abc import Iterator
from typing import BinaryIO, NamedTuple

# A block's bytes, and the two that fill its end.
BLOCK_BYTES, FILL_BYTES = 1014, 2
LENGTH_BYTES = 4
RDW, VBS = "rdw", "vbs"
# What fills a block's end, and what a file may have after its last record.
FILLS = (b"\x40\x40", b"\x20\x20", b"\0\0")
PADDING = b"\x40\x20\0"
GREATEST_RECORD = 65_535


class BadFile(Exception):
    """Bytes that can't be cut into records any more: what follows them is lost."""


class FileRecord(NamedTuple):
    """A record: its number from 1, the offset in the file of its length, and its bytes."""

    number: int
    offset: int
    data: bytes


class Source:
    """The bytes of a file without what fills its blocks."""

    def __init__(self, file: BinaryIO, is_blocked: bool) -> None:
        self.file, self.is_blocked = file, is_blocked
        self.unread, self.blocks, self.read_bytes = b"", 0, 0

    @property
    def offset(self) -> int:
        """The offset in the file of the next byte."""
        at = self.read_bytes - len(self.unread)
        return at + FILL_BYTES * (at // (BLOCK_BYTES - FILL_BYTES)) if self.is_blocked else at

    def take(self, count: int) -> bytes:
        """The next bytes; fewer at the end of the file."""
        while len(self.unread) < count:
            piece = self.block() if self.is_blocked else self.file.read(1 << 16)
            if not piece:
                break
            self.unread += piece
            self.read_bytes += len(piece)
        found, self.unread = self.unread[:count], self.unread[count:]
        return found

    def block(self) -> bytes:
        data = self.file.read(BLOCK_BYTES)
        if not data:
            return b""
        self.blocks += 1
        if len(data) != BLOCK_BYTES:
            raise BadFile(
                f"block {self.blocks} has {len(data)} bytes, and each has {BLOCK_BYTES}: is the file blocked?"
            )
        if data[-FILL_BYTES:] not in FILLS:
            filled = data[-FILL_BYTES:].hex()
            raise BadFile(f"block {self.blocks} ends with {filled}, and blocks end with 4040: is the file blocked?")
        return data[:-FILL_BYTES]


def records_of(file: BinaryIO, form: str, is_blocked: bool) -> Iterator[FileRecord]:
    """The records of a file. BadFile says after which record and at which offset it can't be read any more."""
    source, number = Source(file, is_blocked), 0
    while True:
        offset = source.offset
        try:
            data = next_record(source, form)
        except BadFile as fault:
            raise BadFile(f"after record {number}, at offset {offset}: {fault}") from fault
        if data is None:
            return
        number += 1
        yield FileRecord(number, offset, data)


def next_record(source: Source, form: str) -> "bytes | None":
    """The next record; None at the end of the file."""
    word = source.take(LENGTH_BYTES)
    if not word or word.strip(PADDING) == b"":
        check_end(source)
        return None
    if len(word) < LENGTH_BYTES:
        raise BadFile(f"the file ends within a length, {word.hex()}")
    if form == VBS:
        length = int.from_bytes(word, "big")
    else:
        length = int.from_bytes(word[:2], "big") - LENGTH_BYTES
        if word[2:] != b"\0\0" or length < 0:
            raise BadFile(f"{word.hex()} is no record descriptor word of a whole record: is the file one of VBS?")
    if length > GREATEST_RECORD:
        raise BadFile(f"a record of {length} bytes, and {GREATEST_RECORD} are the most: are there blocks, or RDW?")
    data = source.take(length)
    if len(data) < length:
        raise BadFile(f"the file ends within a record of {length} bytes, of which {len(data)} are there")
    return data


def check_end(source: Source) -> None:
    """Refuses bytes after the end that aren't padding: they may be records."""
    while True:
        offset, piece = source.offset, source.take(1 << 12)
        if not piece:
            return
        if piece.strip(PADDING):
            raise BadFile(f"more than padding follows the end of the records, from offset {offset} on")
