"""A second packer of the shipped dialects, by fields as jPOS's packagers have them: `LLNUM`, `CHAR`, `LLLBINARY`.

It shares neither code nor files with the gateway: each element stands here again, and EBCDIC is that of the C library.
A value is a text, and that of a binary element is hexadecimal digits.
"""
import functools
import subprocess
from collections.abc import Callable
from typing import NamedTuple, Union

Values = dict[Union[int, str], str]

# A field of these editions: its numbers, its kind, its length or the greatest one.
FIELDS = {
    "1987": (
        "2:LLNUM19 3:NUM6 4-6:NUM12 7:NUM10 8-10:NUM8 11-12:NUM6 13-18:NUM4 19-24:NUM3 25-26:NUM2 27:NUM1 28-31:AMOUNT9"
        " 32-33:LLNUM11 34:LLCHAR28 35:LLTRACK37 36:LLLTRACK104 37:CHAR12 38:CHAR6 39:CHAR2 40:CHAR3 41:CHAR8 42:CHAR15"
        " 43:CHAR40 44:LLCHAR25 45:LLCHAR76 46-48:LLLCHAR999 49-51:CHAR3 52:BINARY8 53:NUM16 54:LLLCHAR120"
        " 55:LLLBINARY255 56-63:LLLCHAR999 64:BINARY8 66:NUM1 67:NUM2 68-70:NUM3 71-72:NUM4 73:NUM6 74-81:NUM10"
        " 82-85:NUM12 86-89:NUM16 90:NUM42 91:CHAR1 92:CHAR2 93:CHAR5 94:CHAR7 95:CHAR42 96:BINARY8 97:AMOUNT17"
        " 98:CHAR25 99-100:LLNUM11 101:LLCHAR17 102-103:LLCHAR28 104:LLLCHAR100 105-127:LLLCHAR999 128:BINARY8"
    ),
    "1993": (
        "2:LLNUM19 3:NUM6 4-6:NUM12 7:NUM10 8-10:NUM8 11:NUM6 12:NUM12 13-14:NUM4 15:NUM6 16-18:NUM4 19-21:NUM3"
        " 22:CHAR12 23-24:NUM3 25-26:NUM4 27:NUM1 28:NUM6 29:NUM3 30:NUM24 31:LLCHAR99 32-33:LLNUM11 34:LLCHAR28"
        " 35:LLTRACK37 36:LLLTRACK104 37:CHAR12 38:CHAR6 39-40:NUM3 41:CHAR8 42:CHAR15 43-44:LLCHAR99 45:LLCHAR76"
        " 46:LLLCHAR204 47-48:LLLCHAR999 49-51:CHAR3 52:BINARY8 53:LLBINARY48 54:LLLCHAR120 55:LLLBINARY255 56:LLNUM35"
        " 57:NUM3 58:LLNUM11 59-63:LLLCHAR999 64:BINARY8 66:LLLCHAR204 67:NUM2 68-70:NUM3 71:NUM8 72:LLLCHAR999"
        " 73:NUM6 74-85:NUM10 86-89:NUM16 90:NUM10 91-92:NUM3 93-94:LLNUM11 95:LLCHAR99 96:LLLBINARY999 97:AMOUNT17"
        " 98:CHAR25 99:LLCHAR11 100:LLNUM11 101:LLCHAR17 102-103:LLCHAR28 104:LLLCHAR100 105-106:NUM16 107-108:NUM10"
        " 109-110:LLCHAR84 111-127:LLLCHAR999 128:BINARY8"
    ),
}


@functools.cache
def table_of(edition: str) -> "dict[int, tuple[str, int]]":
    found = {}
    for row in FIELDS[edition].split():
        numbers, _, kind = row.partition(":")
        first, _, last = numbers.partition("-")
        name = kind.rstrip("0123456789")
        for number in range(int(first), int(last or first) + 1):
            found[number] = (name, int(kind[len(name) :]))
    return found


@functools.cache
def ebcdic_table() -> bytes:
    """The bytes of the first 256 characters in code page 500, by the C library."""
    plain = bytes(range(256))
    return subprocess.run(
        ["iconv", "-f", "LATIN1", "-t", "IBM500"], input=plain, capture_output=True, check=True
    ).stdout


def zeros_before(digits: str) -> str:
    return "0" * (len(digits) % 2) + digits


def zeros_after(digits: str) -> str:
    return digits + "0" * (len(digits) % 2)


def fs_after(digits: str) -> str:
    return digits + "F" * (len(digits) % 2)


class Packer(NamedTuple):
    """How a dialect writes digits, lengths, texts and bytes."""

    edition: str
    number: Callable[[str], bytes]
    # Digits of an element with a length, track data and a length of so many digits.
    long_number: Callable[[str], bytes]
    track: Callable[[str], bytes]
    length: Callable[[int, int], bytes]
    text: Callable[[str], bytes]
    binary: Callable[[str], bytes]
    # What a binary element's length counts: its bytes, or its digits.
    counts: Callable[[str], int]
    bitmap: Callable[[bytes], bytes]
    header: str = ""
    # Elements whose blanks at the end are bytes 00, and track data that are written in characters.
    nulled: "tuple[int, ...]" = ()
    spelled: "tuple[int, ...]" = ()

    def field(self, number: int, value: str) -> bytes:
        kind = table_of(self.edition)[number][0]
        places = len(kind) - len(kind.lstrip("L"))
        name = kind[places:]
        if name == "AMOUNT":
            return self.text(value[:1]) + self.number(value[1:])
        body = {
            "NUM": self.long_number if places else self.number,
            "CHAR": self.text,
            "TRACK": self.text if number in self.spelled else self.track,
            "BINARY": self.binary,
        }[name](value)
        if number in self.nulled:
            body = body.rstrip(b" ").ljust(len(body), b"\0")
        count = self.counts(value) if name == "BINARY" else len(value)
        return (self.length(places, count) if places else b"") + body

    def message(self, values: Values) -> bytes:
        numbers = sorted(it for it in values if isinstance(it, int))
        bits = bytearray(16)
        for number in numbers:
            bits[(number - 1) // 8] |= 0x80 >> (number - 1) % 8
        if numbers[-1:] > [64]:
            bits[0] |= 0x80
        map_bytes = bytes(bits if bits[0] & 0x80 else bits[:8])
        head = bytes.fromhex(self.header) + self.number(values["type"]) + self.bitmap(map_bytes)
        return head + b"".join(self.field(number, values[number]) for number in numbers)


def in_ascii(text: str) -> bytes:
    return text.encode("latin-1")


def in_ebcdic(text: str) -> bytes:
    return text.encode("latin-1").translate(ebcdic_table())


def packed(pad: Callable[[str], str]) -> Callable[[str], bytes]:
    return lambda digits: bytes.fromhex(pad(digits.replace("=", "D")))


def packed_length(places: int, count: int) -> bytes:
    return bytes.fromhex(str(count).zfill(2 if places == 2 else 4))


def upper(text: str) -> bytes:
    return text.upper().encode()


BEFORE, AFTER, FILLED = packed(zeros_before), packed(zeros_after), packed(fs_after)
RAW = bytes.fromhex


def octets(value: str) -> int:
    return len(value) // 2


PACKERS = {
    "1987-ascii": Packer(
        *("1987", in_ascii, in_ascii, in_ascii, lambda places, count: in_ascii(str(count).zfill(places)), in_ascii),
        *(upper, len, lambda bits: upper(bits.hex())),
    ),
    "1993-packed": Packer(
        *("1993", BEFORE, BEFORE, BEFORE, packed_length, in_ascii, RAW, octets, bytes),
    ),
    "1987-jpos-binary": Packer(
        *("1987", BEFORE, AFTER, AFTER, packed_length, in_ascii, RAW, octets, bytes, "", (), (36,)),
    ),
    "1987-tpdu": Packer(
        *("1987", BEFORE, FILLED, FILLED, packed_length, in_ascii, RAW, octets, bytes),
        *("6000010000" + b"ISO025000070".hex(), (41,)),
    ),
    "1993-ebcdic": Packer(
        *("1993", in_ebcdic, in_ebcdic, in_ebcdic, lambda places, count: in_ebcdic(str(count).zfill(places))),
        *(in_ebcdic, RAW, octets, bytes),
    ),
}
