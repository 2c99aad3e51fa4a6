"""Request lines: their forms, and the PAN that a line names."""
import functools
from collections.abc import Callable, Iterator
from typing import NamedTuple, cast

DECIDE, QUEUE, SET_STATUS = "A", "Q", "S"
PAN_TAG = b"\x5a"
# The bytes of a length after its first byte, which says so.
LONG_LENGTHS = {0x81: 1, 0x82: 2}


class Torn(ValueError):
    """Chip data that end within an object."""

    def __init__(self) -> None:
        super().__init__("the chip data are torn")


class DataObject(NamedTuple):
    """An object of chip data in BER-TLV."""

    tag: bytes
    value: bytes


# (a third of the time of the class's own call)
new_object = cast("Callable[[tuple[bytes, bytes]], DataObject]", functools.partial(tuple.__new__, DataObject))


def pan_of_line(line: str) -> str:
    """Returns the digits of a request line's PAN, by which it has its partition. A line without one is a ValueError."""
    form, _, words = line.partition(" ")
    if form in (QUEUE, SET_STATUS):
        return words.split(" ")[0]
    if form != DECIDE:
        raise ValueError("the line has none of the forms A, Q and S")
    for tag, value in objects_of(bytes.fromhex(words)):
        if tag == PAN_TAG:
            return pan_of_bytes(value)
    raise ValueError("the chip data have no whole PAN (tag 5A)")


def pan_of_bytes(value: bytes) -> str:
    pan = value.hex().rstrip("f")
    if not pan.isdecimal():
        raise ValueError("the PAN (tag 5A) isn't decimal")
    return pan


def objects_of(data: bytes) -> Iterator[DataObject]:
    """The objects of chip data; bytes 00 between them are skipped. It ends before an object whose value isn't whole."""
    at, end = 0, len(data)
    while at < end:
        first = data[at]
        if first == 0:
            at += 1
            continue
        # (nearly all tags have one byte, or two of which the second ends it, and nearly all lengths one byte)
        begin = at + 1 if first & 0x1F != 0x1F else at + 2
        if begin >= end or begin == at + 2 and data[at + 1] & 0x80:
            begin = end_of_tag(data, at)
        length, value = data[begin], begin + 1
        if length >= 0x80:
            length, value = length_at(data, begin)
        if value + length > end:
            return
        yield new_object((data[at:begin], data[value : value + length]))
        at = value + length


def end_of_tag(data: bytes, at: int) -> int:
    """Returns where the tag ends that begins here: one to three bytes, before at least one of its length."""
    end = at + 1
    if data[at] & 0x1F == 0x1F:
        end += 1
        if end <= len(data) and data[end - 1] & 0x80:
            end += 1
    if end >= len(data):
        raise Torn
    return end


def length_at(data: bytes, at: int) -> tuple[int, int]:
    """Returns the length that begins here, and where its value begins."""
    first, begin = data[at], at + 1
    if first < 0x80:
        return first, begin
    if first not in LONG_LENGTHS:
        raise Torn
    end = begin + LONG_LENGTHS[first]
    if end > len(data):
        raise Torn
    return int.from_bytes(data[begin:end], "big"), end
