"""What a dialect of ISO 8583 means: plain data, by which codec, frames and sessions are made.

`dialect_file` reads it from a file, and docs/integrate/dialects.md has the file's members. Each element has all that
its bytes depend on in its `Format`: nothing else of a dialect changes them.
"""

from __future__ import annotations

from dataclasses import dataclass, field
from typing import Mapping, NamedTuple, Optional, Tuple

from issuer_host.gateway.advice_rules import AdviceRules
from issuer_host.gateway.mapping import ElementRow

LAST_ELEMENT = 128
# Element 1 is the second bitmap, and 65 announces a third one, which no message of these editions has.
BITMAP_ELEMENTS = (1, 65)
# How a length is written, beside digits in characters: `Length.form` then names their codec.
BINARY, BCD = "binary", "bcd"
# A frame's length may also be two bytes, binary, with two zeros after it.
BEFORE_ZEROS = "binary, two zeros after"


class Length(NamedTuple):
    """A length before an element: of so many bytes, binary, two digits a byte, or in the characters of a codec."""

    width: int
    form: str
    # Whether it counts the characters of a hexadecimal element, and not the bytes that they stand for.
    counts_characters: bool = False


class Odd(NamedTuple):
    """What an odd number of packed digits has more: a digit, before or after them."""

    digit: str
    is_before: bool


class Fill(NamedTuple):
    """The byte that fills an element of fixed length, before or after its text."""

    byte: bytes
    is_before: bool


class Format(NamedTuple):
    """How an element is written: its kind, and its places, or the greatest number of them if it has a length.

    `digits` and `hexadecimal` name the codec of their characters. Without one digits are packed, and bytes raw.
    """

    kind: str
    size: int
    length: Optional[Length] = None
    digits: Optional[str] = "ascii"
    odd: Odd = Odd("0", True)
    hexadecimal: Optional[str] = "ascii"
    characters: str = "latin-1"
    fill: Optional[Fill] = None

    def has_room_for(self, size: int) -> bool:
        """Whether a value of this size can be written."""
        return self.size >= size if self.length else self.size == size


class FrameLength(NamedTuple):
    """The length before a frame: of so many bytes, binary, bcd, or in ASCII digits."""

    width: int = 2
    form: str = BINARY
    counts_itself: bool = False


class LinkHeader(NamedTuple):
    """Bytes before a message. A response has those of its request, or `answer`; the gateway's own messages have `own`.

    `exchanged`: two places and a size. A response has the bytes of each place at the other one.
    """

    size: int
    own: bytes
    answer: Optional[bytes] = None
    exchanged: Optional[Tuple[int, int, int]] = None
    # The first byte's upper half, where the header is none without it.
    begins: Optional[int] = None


class Network(NamedTuple):
    """Network messages: the element with their code, and what is done at which code.

    A code that the gateway itself sends at no time is empty. So is `signed_off`, the code in element 39 of requests
    that come while the link is signed off, if they are decided all the same.
    """

    element: int
    accepted: Tuple[str, ...]
    sign_on: str = ""
    sign_off: str = ""
    echo: str = ""
    echo_seconds: float = 60.0
    answer_seconds: float = 10.0
    signed_off: str = ""
    # What the gateway's own messages have beside time, trace number and code.
    own: Mapping[int, str] = {}


@dataclass(frozen=True)
class Dialect:
    """A dialect.

    `echo` are the elements that a response has from its request. `declines` has the statuses by which the host
    declines what the account does, by the code in element 39 of the request; `codes` the link's own codes in element
    39 of responses, by those of docs/integrate/iso8583.md. `advices` says what is acknowledged. Where `is_converted`,
    the link may have converted element 4.
    """

    name: str
    edition: str
    # The four digits of a type; a bitmap's codec, or None if bitmaps are raw.
    kind: Format
    bitmaps: Optional[str]
    frame: FrameLength
    headers: Tuple[LinkHeader, ...]
    network: Network
    is_converted: bool
    echo: Tuple[int, ...]
    declines: Mapping[str, int]
    advices: AdviceRules
    formats: Mapping[int, Format]
    codes: Mapping[str, str] = field(default_factory=dict)
    # Which elements make a request line's objects.
    rows: Tuple[ElementRow, ...] = ()

    @property
    def header_bytes(self) -> int:
        """How many bytes all headers have."""
        return sum(it.size for it in self.headers)
