"""Lists of data objects (DOL), parsed and filled.

EMV 4.3 Book 3, section 5.4, "Rules for using a DOL", and Annex B.
"""
from collections.abc import Iterator

from oracle.chip_data import Refused, objects, tag_length

# The formats of data objects in which padding isn't 00 on the right: EMV 4.3 Book 3, Annex A.
NUMERIC = {"5f34", "9a", "9c", "9f02", "9f03", "9f1a", "5f2a"}
COMPRESSED_NUMERIC = {"5a"}

MOST_ENTRIES = 64
MOST_BYTES = 252
MOST_OBJECTS = 64
MOST_VALUE_BYTES = 64


class Bad(Exception):
    """A list or data that isn't one: `at` is the offset of the first entry or object that it may not have."""

    def __init__(self, at: int) -> None:
        super().__init__(at)
        self.at = at


class BadDol(Bad):
    pass


class BadData(Bad):
    pass


def read_dol(data: bytes) -> list[tuple[str, int]]:
    """The entries: tag in hexadecimal, and how many bytes."""
    entries: list[tuple[str, int]] = []
    total = at = 0
    while at < len(data):
        length = tag_length(data, at)
        if length is None or at + length >= len(data):
            raise BadDol(at)
        total += data[at + length]
        if len(entries) == MOST_ENTRIES or total > MOST_BYTES:
            raise BadDol(at)
        entries.append((data[at : at + length].hex(), data[at + length]))
        at += length + 1
    return entries


def read_data(data: bytes) -> dict[str, bytes]:
    """The values by their tags in hexadecimal."""
    values: dict[str, bytes] = {}
    try:
        for tag, value, at in placed_objects(data):
            if len(values) == MOST_OBJECTS or len(value) > MOST_VALUE_BYTES or tag in values:
                raise BadData(at)
            values[tag] = value
    except Refused as torn:
        raise BadData(int(str(torn).split()[1])) from None
    return values


def placed_objects(data: bytes) -> Iterator[tuple[str, bytes, int]]:
    """The objects with their offsets. An object's offset is where its value ends, less its value, length and tag."""
    rest = 0
    for tag, value in objects(data):
        while data[rest] == 0:
            rest += 1
        yield tag, value, rest
        rest = end_of(data, rest, len(tag) // 2, len(value))


def end_of(data: bytes, at: int, tag_bytes: int, value_bytes: int) -> int:
    return at + tag_bytes + {0x81: 2, 0x82: 3}.get(data[at + tag_bytes], 1) + value_bytes


def filled_entry(tag: str, size: int, value: bytes | None) -> bytes:
    """The bytes of one entry."""
    is_constructed = int(tag[:2], 16) & 0x20
    if value is None or is_constructed:
        return bytes(size)
    if tag in NUMERIC:
        return value[len(value) - size :] if len(value) > size else value.rjust(size, b"\0")
    padding = b"\xff" if tag in COMPRESSED_NUMERIC else b"\0"
    return value[:size].ljust(size, padding)


def fill_dol(dol: bytes, data: bytes) -> bytes:
    """The filled list of these two texts. Raises `BadDol` first, then `BadData`."""
    entries = read_dol(dol)
    values = read_data(data)
    return b"".join(filled_entry(tag, size, values.get(tag)) for tag, size in entries)
