"""Checks a dialect of ISO 8583, and reads captured frames by it.

usage: dialect check DIALECT
       dialect read DIALECT [HEX ..]

DIALECT is the name of a shipped dialect, or a file. `check` prints each fault with its line, column and member. `read`
prints the elements of each frame: HEX is a frame with its length before it, in hexadecimal digits, as Wireshark copies
it; without one each line of the standard input is a frame. If a frame can't be read, it says which element at which
byte. PANs are masked; of track data, PIN blocks and chip data only the size is printed.

The status is 0, 2 if the dialect has a fault, and 10 if a frame can't be read.
"""

import re
import sys
from collections.abc import Iterable, Sequence

from issuer_host.facts.masks import masked
from issuer_host.facts.statuses import Status
from issuer_host.gateway import mapping
from issuer_host.gateway.dialect import Dialect, Format
from issuer_host.gateway.dialect_file import BadDialect, named, read_dialect
from issuer_host.gateway.elements import Value
from issuer_host.gateway.frames import BadFrame, FrameBuffer, GREATEST_FRAME
from issuer_host.gateway.message import Codec, Message, Unreadable
from issuer_host.gateway.options import DIALECTS

# Of these elements no more than the size is printed: track data, PIN block, keys, chip data.
UNSEEN = (35, 36, 45, 52, 53, 55, 96)
BYTES_SHOWN = 8
# What may be an account number in a text that isn't a dialect.
PAN = re.compile(r"[0-9]{12,19}")


def without_pans(text: str) -> str:
    """Returns a text of a dialect or of a frame with each number masked that may be an account number."""
    return PAN.sub(lambda found: masked(found[0]), text)


def main(words: Sequence[str]) -> int:
    if list(words) in (["--help"], ["-h"]):
        print(__doc__, end="")
        return Status.OK
    if len(words) < 2 or words[0] not in ("check", "read") or words[0] == "check" and len(words) > 2:
        print("dialect: write `dialect check DIALECT`, or `dialect read DIALECT [HEX ..]`", file=sys.stderr)
        return Status.USAGE
    try:
        dialect = read_dialect(named(words[1], DIALECTS))
    except BadDialect as wrong:
        print(without_pans(str(wrong)))
        return Status.CONFIGURATION
    if words[0] == "check":
        print(f"{words[1]}: {dialect.name}, {len(dialect.formats)} elements: no fault")
        return Status.OK
    return read_all(dialect, words[2:] or sys.stdin)


def read_all(dialect: Dialect, texts: Iterable[str]) -> int:
    codec, are_read = Codec(dialect), True
    for text in texts:
        if text.strip():
            are_read = read_frames(codec, text) and are_read
    return Status.OK if are_read else Status.BAD_DATA


def read_frames(codec: Codec, text: str) -> bool:
    """Prints the frames of a text of hexadecimal digits. Returns whether each is whole and can be read."""
    try:
        data = bytes.fromhex(text.strip())
    except ValueError:
        print(f"no hexadecimal digits: {without_pans(text.strip()[:40])}")
        return False
    buffer, are_read = FrameBuffer(codec.dialect, GREATEST_FRAME), True
    buffer.data = bytearray(max(len(buffer.data), len(data)))
    buffer.view = memoryview(buffer.data)
    buffer.room()[: len(data)] = data
    buffer.filled(len(data))
    try:
        while (body := buffer.next()) is not None:
            are_read = shown(codec, body) and are_read
    except BadFrame as fault:
        print(f"no frame: {fault}")
        return False
    if buffer.keep_alives:
        print(f"{buffer.keep_alives} keep-alives")
    left = buffer.end - buffer.begin
    if left:
        begins = bytes(buffer.view[buffer.begin : buffer.begin + codec.dialect.frame.width])
        print(f"a torn frame: {left} bytes, and its length is {begins.hex()}")
    return are_read and not left


def shown(codec: Codec, body: bytes) -> bool:
    """Prints a message; returns whether it can be read."""
    try:
        message = codec.unpack(body)
    except Unreadable as fault:
        if fault.so_far is not None:
            show_elements(codec.dialect, fault.so_far)
        found = body[fault.at : fault.at + BYTES_SHOWN]
        print(f"CAN'T BE READ at byte {fault.at} of {len(body)}, {found.hex(' ')}: {fault.why}")
        return False
    show_elements(codec.dialect, message)
    return True


def show_elements(dialect: Dialect, message: Message) -> None:
    header = f", headers {message.header.hex()}" if message.header else ""
    print(f"{message.kind}{header}")
    for number, value in message.elements.items():
        print(f"{number:5}  {format_text(dialect.formats[number]):12}  {value_text(number, value)}")


def format_text(form: Format) -> str:
    return f"{form.kind} {'..' * (form.length is not None)}{form.size}"


def value_text(number: int, value: Value) -> str:
    if number in UNSEEN:
        return f"({len(value)} {'bytes' if isinstance(value, bytes) else 'places'})"
    if isinstance(value, bytes):
        return value.hex()
    return masked(value) if number == mapping.PAN else value
