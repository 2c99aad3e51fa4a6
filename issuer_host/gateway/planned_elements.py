"""The elements of a request as a plan reads them: runs of fixed ones by one check, others by their length.

Each byte of a fixed element has a set of bytes that it may be. A run is translated so that each byte has a bit for each
set that lacks it, and none of the bits that its place asks for may be there. What this refuses may still be right.
"""

import functools
from collections.abc import Iterable, Mapping, Sequence
from typing import NamedTuple, Optional

from issuer_host.gateway.dialect import Format, Odd
from issuer_host.gateway.elements import (
    CHARACTERS,
    DIGITS,
    HEXADECIMAL,
    Reader,
    SIGNS,
    TornElement,
    Value,
    body_reader_of,
    bytes_of,
    counter_of,
    length_writer_of,
    reader_of,
    width_of_places,
)

ANY = bytes(range(256))
# Sets of bytes that are told from one another by a byte's bits.
SETS = 8
# The fixed elements of a plan have so many bytes at most, and a table of lengths has so many rows.
MOST_BYTES, MOST_LENGTHS = 4096, 1000


class Cut(NamedTuple):
    """Where bytes of a request stand: from `begin` bytes after an end to `end` bytes after another one.

    Ends are counted: the first is that of the bitmaps, and each element with a length has one.
    """

    first: int
    begin: int
    last: int
    end: int


class Section(NamedTuple):
    """A run of fixed elements, perhaps of none, and the reader of the element that follows, if there is one."""

    width: int
    table: bytes
    mask: int
    reader: Optional[Reader]
    number: int


class Layout(NamedTuple):
    """What the elements of some numbers are in a message's bytes."""

    sections: tuple[Section, ...]
    cuts: Mapping[int, Cut]


# Sets of bytes


@functools.lru_cache(512)
def sets_of(form: Format) -> Optional[tuple[bytes, ...]]:
    """The bytes that a fixed element may have, place by place; None if no such sets say it."""
    if form.length is not None or form.fill is not None or form.size > MOST_BYTES:
        return None
    if form.kind == "b":
        codec = form.hexadecimal
        return (ANY,) * form.size if codec is None else (set_of(HEXADECIMAL, codec),) * (2 * form.size)
    if form.kind in ("n", "z"):
        return digit_sets(form, form.size)
    if form.kind == "x":
        return (set_of(SIGNS, form.characters), *digit_sets(form._replace(kind="n"), form.size - 1))
    return (bytes_of(form.kind, form.characters),) * form.size


def set_of(characters: str, codec: str) -> bytes:
    return bytes(sorted(characters.encode(codec)))


def digit_sets(form: Format, size: int) -> tuple[bytes, ...]:
    """The sets of digits, or of track data, of which two may be in a byte."""
    if form.digits is not None:
        return (set_of(CHARACTERS[form.kind], form.digits),) * size
    halves = DIGITS + "d" * (form.kind == "z")
    both = packed_set(halves, halves)
    if size % 2 == 0:
        return (both,) * (size // 2)
    one, others = (padded_set(form.odd, halves),), (both,) * (size // 2)
    return one + others if form.odd.is_before else others + one


def padded_set(odd: Odd, halves: str) -> bytes:
    """The byte that an odd number of digits has more: a digit of the dialect, and one of the element's."""
    return packed_set(odd.digit, halves) if odd.is_before else packed_set(halves, odd.digit)


def packed_set(upper: str, lower: str) -> bytes:
    return bytes(sorted(int(one + other, 16) for one in upper for other in lower))


class ByteSets:
    """The sets of bytes of all fixed elements of a dialect, some at a time, each in a group with a bit of its own."""

    def __init__(self, formats: Iterable[Format]) -> None:
        found = sorted({it for form in formats for it in sets_of(form) or ()} - {ANY})
        groups = [found[at : at + SETS] for at in range(0, len(found), SETS)] or [[]]
        self.tables = [bits_of(group) for group in groups]
        self.bits = {it: (number, 1 << bit) for number, group in enumerate(groups) for bit, it in enumerate(group)}

    def group_of(self, sets: Sequence[bytes]) -> Optional[int]:
        """The group that has all of these sets; None if none has."""
        numbers = {self.bits[it][0] for it in sets if it != ANY} or {0}
        return min(numbers) if len(numbers) == 1 else None

    def mask_of(self, sets: Iterable[bytes]) -> bytes:
        return bytes(0 if it == ANY else self.bits[it][1] for it in sets)


def bits_of(group: Sequence[bytes]) -> bytes:
    """Of each byte the sets that lack it, a bit each."""
    return bytes(sum(1 << bit for bit, it in enumerate(group) if byte not in it) for byte in range(256))


# Elements with a length


@functools.lru_cache(512)
def short_reader(form: Format) -> Reader:
    """The reader of an element that no run has: by a table of its lengths, if it isn't too long."""
    if form.length is None or form.size >= MOST_LENGTHS:
        return reader_of(form)
    begin, lengths, read_body = form.length.width, lengths_of(form), body_reader_of(form)

    def read(data: bytes, at: int) -> tuple[Value, int]:
        at += begin
        size, width = lengths.get(data[at - begin : at], NO_LENGTH)
        end = at + width
        if not 0 < end <= len(data):
            raise TornElement("no plan takes it")
        return read_body(data[at:end], size), end

    return read


NO_LENGTH = -1, -1 << 62


def lengths_of(form: Format) -> "dict[bytes, tuple[int, int]]":
    """By a length as it is written: how many places and bytes follow."""
    assert form.length is not None
    write, count, width_of = length_writer_of(form.length), counter_of(form.length), width_of_places(form)
    times = 2 if form.length.counts_characters else 1
    written = {write(size * times): size for size in range(form.size + 1)}
    return {piece: (size, width_of(size)) for piece, size in written.items() if count(piece) == size}


# A layout


class LayoutBuilder:
    """Puts elements one behind another."""

    def __init__(self, sets: ByteSets) -> None:
        self.sets = sets
        self.sections: list[Section] = []
        self.cuts: dict[int, Cut] = {}
        # The run that isn't a section yet: its group of sets and its mask.
        self.group, self.mask = 0, b""
        # The last end, and how many bytes of fixed elements follow it.
        self.ends = self.after = 0

    def add(self, number: int, form: Format) -> None:
        sets = sets_of(form)
        group = self.sets.group_of(sets) if sets is not None else None
        if sets is None or group is None:
            self.close(short_reader(form), number)
            self.cuts[number] = Cut(self.ends, self.after, self.ends + 1, 0)
            self.ends, self.after = self.ends + 1, 0
            return
        if group != self.group:
            self.close(None, 0)
            self.group = group
        self.mask += self.sets.mask_of(sets)
        self.cuts[number] = Cut(self.ends, self.after, self.ends, self.after + len(sets))
        self.after += len(sets)

    def close(self, reader: Optional[Reader], number: int) -> None:
        """The run ends, with an element that isn't fixed or without one."""
        table, mask = self.sets.tables[self.group], int.from_bytes(self.mask, "big")
        self.sections.append(Section(len(self.mask), table, mask, reader, number))
        self.mask = b""


def layout_of(numbers: Iterable[int], formats: Mapping[int, Format], sets: ByteSets) -> Optional[Layout]:
    """The layout of a message's elements; None if the dialect lacks one of them, or there are too many bytes."""
    builder, width = LayoutBuilder(sets), 0
    for number in numbers:
        form = formats.get(number)
        width += len(sets_of(form) or ()) if form is not None else 0
        if form is None or width > MOST_BYTES:
            return None
        builder.add(number, form)
    if builder.mask:
        builder.close(None, 0)
    return Layout(tuple(builder.sections), builder.cuts)
