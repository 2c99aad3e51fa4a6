"""Frames: headers and a message, with their length before them.

A buffer of fixed size holds what was read and isn't a whole frame yet. A frame of length 0, or of headers alone, is a
keep-alive: it has no message, and is passed over.
"""

from collections.abc import Callable
from typing import Optional

from issuer_host.gateway.dialect import BCD, BEFORE_ZEROS, BINARY, Dialect, FrameLength

GREATEST_FRAME = 0xFFFF
LEAST_BUFFER = 8192
# So many keep-alives of a connection are passed over in a second.
KEEP_ALIVES_A_SECOND = 10
# A response has no more than that beside what it echoes: elements 38, 39 and 55, a second bitmap.
RESPONSE_BYTES = 512
ZEROS = b"\0\0"


class BadFrame(Exception):
    """Bytes that begin no frame, and why: what follows them can't be read either."""


def most_of(form: FrameLength) -> int:
    """What a frame's length counts to."""
    if form.form == BINARY:
        return (1 << 8 * form.width) - 1
    digits = 2 * form.width if form.form == BCD else form.width
    return 0xFFFF if form.form == BEFORE_ZEROS else int("9" * digits)


def length_reader(form: FrameLength) -> Callable[[bytes], int]:
    """What reads a frame's length."""
    if form.form == BINARY:
        return lambda piece: int.from_bytes(piece, "big")
    if form.form == BEFORE_ZEROS:
        return read_before_zeros

    def read(piece: bytes) -> int:
        text = piece.hex() if form.form == BCD else piece.decode("latin-1")
        if not (text.isascii() and text.isdecimal()):
            raise BadFrame(f"the length of a frame isn't decimal: {piece.hex()} in hexadecimal digits")
        return int(text)

    return read


def read_before_zeros(piece: bytes) -> int:
    if piece[2:] != ZEROS:
        raise BadFrame(f"two zeros follow the length of a frame, and {piece[2:].hex()} does")
    return int.from_bytes(piece[:2], "big")


class FrameBuffer:
    """What a connection has read: `room` is filled by the reader, `next` cuts frames from it."""

    def __init__(self, dialect: Dialect, limit: int) -> None:
        form = dialect.frame
        self.width, self.more = form.width, form.width if form.counts_itself else 0
        # (a response to the longest message has a length too)
        self.limit = min(limit, most_of(form) - RESPONSE_BYTES)
        self.read_length, self.empty = length_reader(form), dialect.header_bytes
        self.data = bytearray(max(LEAST_BUFFER, 2 * (limit + self.width)))
        self.view = memoryview(self.data)
        self.begin = self.end = 0
        # Keep-alives that were passed over.
        self.keep_alives = 0

    def room(self) -> memoryview:
        """Where more bytes go. It is never empty, if `next` was called until it had no more."""
        if self.begin or self.end == len(self.data):
            held = bytes(self.view[self.begin : self.end])
            if len(held) == len(self.data):
                # (TLS before Python 3.11 brings more than there is room for, though nothing more is read)
                self.data = bytearray(2 * len(held))
                self.view = memoryview(self.data)
            self.view[: len(held)] = held
            self.begin, self.end = 0, len(held)
        return self.view[self.end :]

    def filled(self, count: int) -> None:
        self.end += count

    @property
    def is_empty(self) -> bool:
        return self.begin == self.end

    def next(self) -> Optional[bytes]:
        """The next whole frame's headers and message, or None if it isn't whole yet. BadFrame if its length is none."""
        while True:
            length = self.length()
            if length is None:
                return None
            if length > self.limit:
                raise BadFrame(f"a frame of {length} bytes, and {self.limit} are the most")
            at = self.begin + self.width
            if self.end - at < length:
                return None
            self.begin = at + length
            if length > self.empty:
                return bytes(self.view[at : self.begin])
            if 0 < length < self.empty:
                raise BadFrame(f"a frame of {length} bytes, and its headers have {self.empty}")
            self.keep_alives += 1

    def length(self) -> Optional[int]:
        """The length of the next frame: 0 of a keep-alive, None if it isn't there yet."""
        if self.end - self.begin < self.width:
            return None
        written = self.read_length(self.view[self.begin : self.begin + self.width].tobytes())
        if 0 < written < self.more:
            raise BadFrame(f"a frame of length {written}, and a length counts its own {self.width} bytes")
        return max(written - self.more, 0)


class KeepAlives:
    """How many keep-alives came within a second."""

    def __init__(self) -> None:
        self.count, self.began, self.before = 0, 0.0, 0

    def are_too_many(self, count: int, now: float) -> bool:
        """Whether too many came, of `count` since the connection began."""
        if now - self.began >= 1.0:
            self.began, self.before = now, self.count
        self.count = count
        return count - self.before > KEEP_ALIVES_A_SECOND


def framer_of(form: FrameLength) -> Callable[[bytes], bytes]:
    """What puts the length before headers and message."""
    width, more, how = form.width, form.width if form.counts_itself else 0, form.form
    if how == BINARY:
        return lambda data: (len(data) + more).to_bytes(width, "big") + data
    if how == BEFORE_ZEROS:
        return lambda data: (len(data) + more).to_bytes(2, "big") + ZEROS + data
    if how == BCD:
        return lambda data: bytes.fromhex(f"{len(data) + more:0{2 * width}}") + data
    return lambda data: f"{len(data) + more:0{width}}".encode() + data


def frame_of(dialect: Dialect, data: bytes) -> bytes:
    """Headers and message with their length."""
    return framer_of(dialect.frame)(data)
