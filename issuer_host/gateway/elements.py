"""The bytes of an element, read and written by its format. A reader and a writer are made once for each format."""

import functools
from collections.abc import Callable
from typing import Optional, Union

from issuer_host.gateway.dialect import BCD, BINARY, Fill, Format, Length, Odd

Value = Union[str, bytes]

DIGITS = "0123456789"
LETTERS = "ABCDEFGHIJKLMNOPQRSTUVWXYZabcdefghijklmnopqrstuvwxyz"
HEXADECIMAL = "0123456789ABCDEFabcdef"
SPECIAL = "".join(it for it in map(chr, range(0x20, 0x7F)) if it not in DIGITS + LETTERS)
# The characters of an element's text, by its kind. Texts of fixed length are filled with spaces.
CHARACTERS = {
    "n": DIGITS,
    "a": LETTERS + " ",
    "an": LETTERS + DIGITS + " ",
    "as": LETTERS + SPECIAL,
    "ans": LETTERS + DIGITS + SPECIAL,
    "z": DIGITS + "=Dd",
}
# Kinds of which the names of merchants are, with letters of more alphabets than one: those from here on.
WITH_HIGH, FIRST_HIGH = ("as", "ans"), "\xa0"
SIGNS = "CD"
SEPARATOR = "="
LACKING = "\ufffd"
NOT_WHOLE, NO_DIGITS = "it isn't whole", "it isn't decimal"
# So many kinds in a codec are kept, with their bytes.
SETS = 64
NO_LENGTH, NO_SIGN = "its length isn't decimal", "its sign isn't C or D"


class TornElement(Exception):
    """An element that isn't whole, or isn't of its format, and why."""


# Of a message's bytes, from a place on: what stands there, and where it ends.
Reader = Callable[[bytes, int], tuple[Value, int]]
# Of an element's own bytes and its places: its value.
BodyReader = Callable[[bytes, int], Value]
Writer = Callable[[Value], bytes]


@functools.lru_cache(SETS)
def bytes_of(kind: str, codec: str) -> bytes:
    """The bytes that a text of this kind may have in a codec."""
    allowed = set(CHARACTERS[kind].encode(codec))
    if kind in WITH_HIGH:
        # (some codecs lack characters for some bytes)
        decoded = [bytes([it]).decode(codec, errors="replace") for it in range(256)]
        allowed |= {it for it in range(256) if decoded[it] >= FIRST_HIGH and decoded[it] != LACKING}
    return bytes(sorted(allowed))


# Reading


def reader_of(form: Format) -> Reader:
    """The reader of an element of this format."""
    read_body, width_of = body_reader_of(form), width_of_places(form)
    if form.length is None:
        return fixed_reader(read_body, form.size, width_of(form.size))
    begin, count, most = form.length.width, counter_of(form.length), form.size

    def read(data: bytes, at: int) -> tuple[Value, int]:
        at += begin
        size = count(data[at - begin : at])
        if size > most:
            raise TornElement(f"its length is {size}, and {most} at most")
        width = width_of(size)
        end = at + width
        piece = data[at:end]
        if len(piece) != width:
            raise TornElement(NOT_WHOLE)
        return read_body(piece, size), end

    return read


def fixed_reader(read_body: BodyReader, size: int, width: int) -> Reader:
    def read(data: bytes, at: int) -> tuple[Value, int]:
        end = at + width
        piece = data[at:end]
        if len(piece) != width:
            raise TornElement(NOT_WHOLE)
        return read_body(piece, size), end

    return read


def width_of_places(form: Format) -> Callable[[int], int]:
    """What says how many bytes so many places have."""
    if form.kind == "b":
        return identity if form.hexadecimal is None else lambda size: 2 * size
    if form.digits is None and form.kind in ("n", "z"):
        return lambda size: (size + 1) // 2
    # (a sign is a byte)
    return (lambda size: 1 + size // 2) if form.digits is None and form.kind == "x" else identity


def identity(size: int) -> int:
    return size


def counter_of(length: Length) -> Callable[[bytes], int]:
    """What reads a length: how many places follow."""
    count = plain_counter(length)
    if not length.counts_characters:
        return count

    def count_halves(piece: bytes) -> int:
        found = count(piece)
        if found % 2:
            raise TornElement("its length is odd")
        return found // 2

    return count_halves


def plain_counter(length: Length) -> Callable[[bytes], int]:
    width, form = length.width, length.form

    def count_binary(piece: bytes) -> int:
        if len(piece) != width:
            raise TornElement(NOT_WHOLE)
        return int.from_bytes(piece, "big")

    def count_digits(piece: bytes) -> int:
        if len(piece) != width:
            raise TornElement(NOT_WHOLE)
        if not piece.isdigit():
            raise TornElement(NO_LENGTH)
        return int(piece)

    def count_others(piece: bytes) -> int:
        if len(piece) != width:
            raise TornElement(NOT_WHOLE)
        text = piece.hex() if form == BCD else piece.decode(form, errors="replace")
        if not (text.isascii() and text.isdecimal()):
            raise TornElement(NO_LENGTH)
        return int(text)

    return count_binary if form == BINARY else count_digits if is_plain(form) else count_others


def is_plain(codec: str) -> bool:
    """Whether digits and letters are those of ASCII in a codec."""
    plain = DIGITS + LETTERS
    return codec != BCD and plain.encode(codec) == plain.encode()


def body_reader_of(form: Format) -> BodyReader:
    if form.kind == "b":
        return read_raw if form.hexadecimal is None else hexadecimal_reader(form.hexadecimal)
    if form.kind == "n":
        return digits_reader(form)
    if form.kind == "z":
        return track_reader(form)
    if form.kind == "x":
        return amount_reader(form)
    return text_reader(form)


def read_raw(piece: bytes, size: int) -> Value:
    return piece


def hexadecimal_reader(codec: str) -> BodyReader:
    allowed = HEXADECIMAL.encode(codec)

    def read(piece: bytes, size: int) -> Value:
        if piece.translate(None, allowed):
            raise TornElement("it isn't hexadecimal")
        return bytes.fromhex(piece.decode(codec))

    return read


def digits_reader(form: Format) -> BodyReader:
    if form.digits is None:
        return packed_digits_reader(form.odd)
    codec, digits, fill = form.digits, DIGITS.encode(form.digits), form.fill
    if is_plain(codec) and fill is None:
        return read_digits

    def read(piece: bytes, size: int) -> Value:
        if fill is not None:
            piece = exchanged(piece, fill, fill.byte, digits[:1])
        if piece.translate(None, digits):
            raise TornElement(NO_DIGITS)
        return piece.decode(codec)

    return read


def read_digits(piece: bytes, size: int) -> Value:
    if not piece.isdigit() and piece:
        raise TornElement(NO_DIGITS)
    return piece.decode()


def packed_digits_reader(odd: Odd) -> BodyReader:
    read_packed = packed_reader(odd)

    def read(piece: bytes, size: int) -> Value:
        text = read_packed(piece, size) if size % 2 else piece.hex()
        if not text.isdecimal() and text:
            raise TornElement(NO_DIGITS)
        return text

    return read


def packed_reader(odd: Odd) -> Callable[[bytes, int], str]:
    """The reader of digits two a byte. An odd number of them has one more."""
    digit, is_before = odd.digit.lower(), odd.is_before

    def read(piece: bytes, size: int) -> str:
        text = piece.hex()
        if size % 2:
            if text[0 if is_before else -1] != digit:
                raise TornElement("it isn't padded as the dialect says")
            text = text[1:] if is_before else text[:-1]
        return text

    return read


def track_reader(form: Format) -> BodyReader:
    read_packed = packed_reader(form.odd) if form.digits is None else None
    codec, allowed = form.digits or "ascii", CHARACTERS["z"]

    def read(piece: bytes, size: int) -> Value:
        text = piece.decode(codec, errors="replace") if read_packed is None else read_packed(piece, size)
        if text.strip(allowed):
            raise TornElement("it has a character that isn't of kind z")
        return text.upper().replace("D", SEPARATOR)

    return read


def amount_reader(form: Format) -> BodyReader:
    read_number, signs, codec = digits_reader(form._replace(kind="n")), SIGNS.encode(form.characters), form.characters

    def read(piece: bytes, size: int) -> Value:
        sign = piece[:1]
        if sign not in (signs[:1], signs[1:]):
            raise TornElement(NO_SIGN)
        return f"{sign.decode(codec)}{read_number(piece[1:], size - 1)!s}"

    return read


def text_reader(form: Format) -> BodyReader:
    kind, codec, fill = form.kind, form.characters, form.fill
    allowed, space = bytes_of(form.kind, form.characters), " ".encode(form.characters)

    def read(piece: bytes, size: int) -> Value:
        if fill is not None:
            piece = exchanged(piece, fill, fill.byte, space)
        if piece.translate(None, allowed):
            raise TornElement(f"it has a character that isn't of kind {kind}")
        return piece.decode(codec)

    return read


def exchanged(piece: bytes, fill: Fill, old: bytes, new: bytes) -> bytes:
    """An element with another byte in place of those that fill it."""
    if fill.is_before:
        inner = piece.lstrip(old)
        return new * (len(piece) - len(inner)) + inner
    inner = piece.rstrip(old)
    return inner + new * (len(piece) - len(inner))


# Writing


def writer_of(form: Format) -> Writer:
    """The writer of an element of this format."""
    write_body = bytes_writer(form) if form.kind == "b" else body_writer_of(form)
    write_length = length_writer_of(form.length) if form.length is not None else None
    size, is_fixed, is_binary = form.size, form.length is None, form.kind == "b"
    times = 2 if form.length is not None and form.length.counts_characters else 1

    def write(value: Value) -> bytes:
        if isinstance(value, bytes) != is_binary:
            raise TornElement("it is a text, and has to be bytes" if is_binary else "it is bytes, and has to be a text")
        count = len(value)
        if count > size or is_fixed and count != size:
            raise TornElement(f"its length is {count}")
        body = write_body(value)
        return body if write_length is None else write_length(count * times) + body

    return write


def length_writer_of(length: Length) -> Callable[[int], bytes]:
    width, form = length.width, length.form
    if form == BINARY:
        return lambda count: count.to_bytes(width, "big")
    if form == BCD:
        return lambda count: bytes.fromhex(f"{count:0{2 * width}}")
    return lambda count: f"{count:0{width}}".encode(form)


def bytes_writer(form: Format) -> Callable[[Value], bytes]:
    codec: Optional[str] = form.hexadecimal

    def write(value: Value) -> bytes:
        assert isinstance(value, bytes)
        return value if codec is None else value.hex().upper().encode(codec)

    return write


def body_writer_of(form: Format) -> Callable[[Value], bytes]:
    """The writer of a text."""
    kind, codec, fill = form.kind, form.characters, form.fill
    if kind == "x":
        return amount_writer(form)
    if kind in ("n", "z"):
        return digits_writer(form)
    allowed, space = bytes_of(kind, codec), " ".encode(codec)

    def write(value: Value) -> bytes:
        written = encoded(str(value), codec, kind)
        if written.translate(None, allowed):
            raise TornElement(f"it has a character that isn't of kind {kind}")
        return written if fill is None else exchanged(written, fill, space, fill.byte)

    return write


def digits_writer(form: Format) -> Callable[[Value], bytes]:
    kind, codec, odd, fill = form.kind, form.digits, form.odd, form.fill
    allowed = CHARACTERS[kind]

    def write(value: Value) -> bytes:
        text = str(value)
        if text.strip(allowed):
            raise TornElement(f"it has a character that isn't of kind {kind}")
        if codec is not None:
            written = text.encode(codec)
            return written if fill is None else exchanged(written, fill, DIGITS[:1].encode(codec), fill.byte)
        if len(text) % 2:
            text = odd.digit + text if odd.is_before else text + odd.digit
        return bytes.fromhex(text.replace(SEPARATOR, "D"))

    return write


def amount_writer(form: Format) -> Callable[[Value], bytes]:
    write_number, codec = digits_writer(form._replace(kind="n")), form.characters

    def write(value: Value) -> bytes:
        text = str(value)
        if text[:1] not in ("C", "D"):
            raise TornElement(NO_SIGN)
        return text[:1].encode(codec) + write_number(text[1:])

    return write


def encoded(text: str, codec: str, kind: str) -> bytes:
    try:
        return text.encode(codec)
    except UnicodeEncodeError:
        raise TornElement(f"it has a character that isn't of kind {kind}") from None
