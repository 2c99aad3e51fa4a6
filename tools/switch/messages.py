"""Messages of ISO 8583 by a dialect's file, for the tester. It shares nothing with the gateway but that file.

A message is a dictionary: `type` and the elements' numbers, all values texts; binary ones are hexadecimal digits. So
are the bytes of headers, `header`, where the dialect has some.
"""

import json
import os
from collections.abc import Iterator
from typing import Any, Optional, Union

HOME = os.path.dirname(os.path.dirname(os.path.dirname(os.path.realpath(__file__))))
Message = dict[Union[int, str], str]
TPDU_BYTES = 5
OF_MESSAGE = "of the message"


class Bad(ValueError):
    """Bytes that aren't a message of the dialect."""


class Field:
    """An element by its number: what the dialect says of it, and what it says for all."""

    def __init__(self, rules: dict[str, Any], element: Any) -> None:
        own = element if isinstance(element, dict) else {"format": element}
        self.rules = {"characters": "latin-1"} | rules | own
        form: str = own["format"]
        self.kind, *length, size = form.split(" ")
        self.size, self.places = int(size), len(length[0]) if length else 0
        self.characters: str = self.rules["characters"]

    @property
    def is_packed(self) -> bool:
        return bool(self.rules["numbers"] == "bcd")

    @property
    def is_raw(self) -> bool:
        return bool(self.rules["binary"] == "raw")

    def codec_of(self, member: str) -> str:
        codec: str = "ascii" if self.rules[member] == "ascii" else self.characters
        return codec

    # Writing

    def write(self, value: str) -> bytes:
        if self.kind == "b":
            body = bytes.fromhex(value) if self.is_raw else value.upper().encode(self.characters)
            count = len(value) if self.counts_digits() else len(value) // 2
        elif self.kind == "x":
            body, count = value[:1].encode(self.characters) + self.digits(value[1:]), len(value)
        elif self.kind == "n" or self.kind == "z" and self.is_packed:
            body, count = self.filled(self.digits(value.replace("=", "D")), self.zero), len(value)
        elif self.kind == "z":
            body, count = value.encode(self.codec_of("numbers")), len(value)
        else:
            body, count = self.filled(value.encode(self.characters), self.blank), len(value)
        return (self.length(count) if self.places else b"") + body

    @property
    def zero(self) -> bytes:
        return "0".encode(self.codec_of("numbers"))

    @property
    def blank(self) -> bytes:
        return " ".encode(self.characters)

    def filled(self, body: bytes, old: bytes) -> bytes:
        if "fill" not in self.rules:
            return body
        fill = bytes.fromhex(self.rules["fill"])
        if self.rules.get("fill side") == "before":
            return body.lstrip(old).rjust(len(body), fill)
        return body.rstrip(old).ljust(len(body), fill)

    def digits(self, text: str) -> bytes:
        if not self.is_packed:
            return text.encode(self.codec_of("numbers"))
        more, _, side = self.rules["odd"].partition(" ")
        digit = "0" if more == "zero" else "F"
        if len(text) % 2:
            text = digit + text if side == "before" else text + digit
        return bytes.fromhex(text)

    def counts_digits(self) -> bool:
        return not self.is_raw and bool(self.rules["lengths of binary"] == "characters")

    def length(self, count: int) -> bytes:
        how, octets = self.rules["lengths"], -(-self.places // 2)
        if how in ("ascii", "characters"):
            return str(count).zfill(self.places).encode(self.codec_of("lengths"))
        return count.to_bytes(octets, "big") if how == "binary" else bytes.fromhex(str(count).zfill(2 * octets))

    # Reading

    def read(self, reader: "Reader") -> str:
        count = self.size
        if self.places:
            count = self.read_length(reader)
            count = count // 2 if self.kind == "b" and self.counts_digits() else count
        if self.kind == "b":
            return reader.octets(count).hex() if self.is_raw else self.hexadecimal(reader, count)
        if self.kind == "x":
            return reader.octets(1).decode(self.characters) + self.read_digits(reader, count - 1)
        if self.kind == "n" or self.kind == "z" and self.is_packed:
            return self.read_digits(reader, count).upper().replace("D", "=")
        if self.kind == "z":
            return reader.octets(count).decode(self.codec_of("numbers"))
        return self.unfilled(reader.octets(count), self.blank).decode(self.characters)

    def hexadecimal(self, reader: "Reader", count: int) -> str:
        return reader.octets(2 * count).decode(self.characters).lower()

    def unfilled(self, body: bytes, new: bytes) -> bytes:
        if "fill" not in self.rules:
            return body
        fill = bytes.fromhex(self.rules["fill"])
        if self.rules.get("fill side") == "before":
            return body.lstrip(fill).rjust(len(body), new)
        return body.rstrip(fill).ljust(len(body), new)

    def read_digits(self, reader: "Reader", count: int) -> str:
        if not self.is_packed:
            return self.unfilled(reader.octets(count), self.zero).decode(self.codec_of("numbers"))
        text = reader.octets((count + 1) // 2).hex()
        if count % 2 == 0:
            return text
        return text[1:] if self.rules["odd"].endswith("before") else text[:-1]

    def read_length(self, reader: "Reader") -> int:
        how = self.rules["lengths"]
        if how in ("ascii", "characters"):
            return int(reader.octets(self.places).decode(self.codec_of("lengths")))
        octets = reader.octets(-(-self.places // 2))
        return int.from_bytes(octets, "big") if how == "binary" else int(octets.hex())


class Codec:
    """Writes and reads the messages of a dialect."""

    def __init__(self, name: str) -> None:
        path = (
            name if os.sep in name or name.endswith(".json") else os.path.join(HOME, "deploy/dialects", f"{name}.json")
        )
        with open(path, encoding="utf-8") as text:
            self.rules: dict[str, Any] = json.load(text)
        self.edition: str = self.rules["edition"]
        self.version = {"1987": "0", "1993": "1", "2003": "2"}[self.edition]
        self.formats = {int(number): Field(self.rules, form) for number, form in self.rules["elements"].items()}
        self.kind, self.bitmap = Field(self.rules, "n 4"), Field(self.rules | {"binary": self.rules["bitmaps"]}, "b 8")
        self.is_packed = self.rules["numbers"] == "bcd"
        told = self.rules["frame length"]
        how = told if isinstance(told, dict) else {"bytes": 2, "form": "binary", "counts": told}
        self.width: int = how["bytes"]
        self.form: str = how["form"]
        self.extra: int = 0 if how["counts"] == OF_MESSAGE else self.width
        self.headers: list[dict[str, Any]] = self.rules.get("headers", [])

    # Frames

    def frame(self, message: Message) -> bytes:
        body = self.encode(message)
        return self.frame_length(len(body)) + body

    def frame_length(self, count: int) -> bytes:
        """The bytes of the length before so many bytes."""
        count += self.extra
        if self.form.startswith("binary,"):
            return count.to_bytes(2, "big") + b"\0\0"
        if self.form == "binary":
            return count.to_bytes(self.width, "big")
        text = str(count).zfill(2 * self.width if self.form == "bcd" else self.width)
        return bytes.fromhex(text) if self.form == "bcd" else text.encode()

    def frame_size(self, data: bytes) -> Optional[int]:
        """How many bytes follow the length that data begin with; None if it isn't whole."""
        piece = data[: self.width]
        if len(piece) < self.width:
            return None
        if self.form.startswith("binary,"):
            return int.from_bytes(piece[:2], "big") - self.extra
        if self.form == "binary":
            return int.from_bytes(piece, "big") - self.extra
        return int(piece.hex() if self.form == "bcd" else piece) - self.extra

    # Headers

    def sizes(self) -> Iterator[int]:
        for header in self.headers:
            yield TPDU_BYTES if header["kind"] == "TPDU" else header.get("bytes", len(header.get("answer", "")) // 2)

    def own_header(self) -> str:
        """What a message has that the tester sends first."""
        return "".join(
            header.get("own", "6000000000" if header["kind"] == "TPDU" else "00" * size)
            for header, size in zip(self.headers, self.sizes())
        )

    def answered_header(self, asked: str) -> str:
        """What a response's header has to be."""
        found, at = "", 0
        for header, size in zip(self.headers, self.sizes()):
            piece = asked[at : at + 2 * size]
            at += 2 * size
            if header["kind"] == "TPDU":
                piece = piece[:2] + piece[6:10] + piece[2:6]
            found += header["answer"] if header["kind"] == "answered" else piece
        return found.lower()

    # Messages

    def encode(self, message: Message) -> bytes:
        numbers = sorted(it for it in message if isinstance(it, int))
        bits = ["0"] * (128 if numbers[-1:] > [64] else 64)
        for number in numbers:
            bits[number - 1] = "1"
        if len(bits) == 128:
            bits[0] = "1"
        bitmap = f"{int(''.join(bits), 2):0{len(bits) // 4}X}"
        head = bytes.fromhex(message.get("header", self.own_header())) + self.kind.write(message["type"])
        halves = (self.bitmap.write(bitmap[at : at + 16]) for at in range(0, len(bitmap), 16))
        return head + b"".join(halves) + b"".join(self.formats[number].write(message[number]) for number in numbers)

    def decode(self, body: bytes) -> Message:
        reader = Reader(body)
        header = reader.octets(sum(self.sizes())).hex()
        message: Message = {"type": self.kind.read(reader)}
        if header:
            message["header"] = header
        for number in self.numbers(reader):
            if number not in self.formats:
                raise Bad(f"no element {number}")
            message[number] = self.formats[number].read(reader)
        if reader.at != len(body):
            raise Bad("more follows")
        return message

    def numbers(self, reader: "Reader") -> Iterator[int]:
        bits = f"{int(self.bitmap.read(reader), 16):064b}"
        if bits[0] == "1":
            bits += f"{int(self.bitmap.read(reader), 16):064b}"
        return (number for number, bit in enumerate(bits, 1) if bit == "1" and number > 1)


class Reader:
    """Reads a message from its first byte to its last."""

    def __init__(self, body: bytes) -> None:
        self.body, self.at = body, 0

    def octets(self, count: int) -> bytes:
        self.at += count
        if self.at > len(self.body):
            raise Bad("it is torn")
        return self.body[self.at - count : self.at]
