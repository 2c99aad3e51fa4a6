"""The request line of a request that a plan has read: the objects that its elements make, and its chip data.

The chip data of a terminal's requests have the same tags and lengths in the same places. So their heads are compared
with those of earlier ones, and objects are searched for only if they differ. A line that isn't made here is made, or
refused, by `requests`.
"""

import functools
from binascii import unhexlify
from collections.abc import Callable, Mapping, Sequence
from datetime import date
from typing import NamedTuple, Optional, cast

from issuer_host.facts.request_lines import Torn, end_of_tag, length_at
from issuer_host.gateway import mapping
from issuer_host.gateway.dialect import Dialect, Format
from issuer_host.gateway.elements import is_plain, reader_of
from issuer_host.gateway.mapping import ElementRow
from issuer_host.gateway.planned_elements import Cut
from issuer_host.gateway.requests import MAX_CHIP_DATA, RequestLine, TAGS, TAG_AMOUNT, TAG_PAN, normal, value_of

# Of a plan so many forms of chip data are known, one for each length, and so many values of elements that have few.
FORMS, VALUES = 64, 256
FEW = (mapping.PSN, mapping.CURRENCY, mapping.PROCESSING)
# The date of 1987 has no year, so its value depends on the day: no plan makes it.
NO_DAY = date.min
PAN_DIGITS, MOST_VALUE = range(8, 20), 10
DATE_TAG = "9A"

# Of an element's bytes, as they came: the value of its tag, or None if it has none.
Maker = Callable[[bytes], Optional[bytes]]


class Compared(NamedTuple):
    """An element that has to agree with an object of the chip data."""

    cut: Cut
    make: Maker
    place: slice


class Added(NamedTuple):
    """An element that makes an object: its heads by the value's length.

    Without them it has the tag of an earlier one, the first, and has to have that one's value.
    """

    cut: Cut
    make: Maker
    heads: Sequence[bytes]


class LineForm(NamedTuple):
    """What a line has of a request whose chip data have these heads at these places."""

    mask: int
    heads: int
    compared: Sequence[Compared]
    added: Sequence[Added]
    # Where the chip data have the PAN; None if an element makes it, which is the first one then.
    pan: Optional[slice]
    # Elements that have to have this PAN: chip data may have more F than it needs.
    pans: Sequence[Compared]


class PlannedRow(NamedTuple):
    """An element that may make an object."""

    row: ElementRow
    cut: Cut
    make: Maker


class PlannedLines:
    """The lines of a type with some elements."""

    def __init__(self, dialect: Dialect, cuts: Mapping[int, Cut], is_repeat: bool) -> None:
        self.is_repeat = is_repeat
        # Amounts that a link converts, and accounts' declines, are read element by element.
        self.is_planned = not (dialect.is_converted or dialect.declines and mapping.CODE in cuts)
        self.rows = [
            PlannedRow(row, cuts[row.number], maker_of(row, dialect.formats[row.number]))
            for row in dialect.rows
            if row.number in cuts and dialect.formats[row.number].kind != "b"
        ]
        self.forms: dict[int, LineForm] = {}

    def line_of(self, data: bytes, ends: Sequence[int], chip: bytes) -> Optional[RequestLine]:
        """The line of a request's bytes; None if no plan makes it."""
        if not chip:
            return None
        form = self.forms.get(len(chip))
        if form is None or int.from_bytes(chip, "big") & form.mask != form.heads:
            form = self.learn(chip)
            if form is None:
                return None
        for (first, begin, last, end), make, place in form.compared:
            if make(data[ends[first] + begin : ends[last] + end]) != chip[place]:
                return None
        for (first, begin, last, end), make, place in form.pans:
            if make(data[ends[first] + begin : ends[last] + end]) != normal(TAG_PAN, chip[place]):
                return None
        line, pan = b"", b"" if form.pan is None else chip[form.pan]
        for (first, begin, last, end), make, heads in form.added:
            value = make(data[ends[first] + begin : ends[last] + end])
            if value is None or not heads and value != pan:
                return None
            pan = pan or value
            if heads:
                line += heads[len(value)] + value
        line += chip
        if len(line) > MAX_CHIP_DATA:
            return None
        return RequestLine(f"A {line.hex()}", pan.hex().rstrip("f"), self.is_repeat)

    def learn(self, chip: bytes) -> Optional[LineForm]:
        """The form of a line with such chip data, which is known from now on; None if no plan makes it."""
        found = self.form_of(chip) if self.is_planned else None
        if found is not None:
            if len(self.forms) >= FORMS:
                self.forms.clear()
            self.forms[len(chip)] = found
        return found

    def form_of(self, chip: bytes) -> Optional[LineForm]:
        heads = heads_of(chip)
        if heads is None:
            return None
        compared: list[Compared] = []
        pans: list[Compared] = []
        added: list[Added] = []
        tags: list[str] = []
        for row, cut, make in self.rows:
            place = heads.places.get(row.tag)
            if place is None:
                if row.tag == DATE_TAG and row.number == mapping.DATE["1987"]:
                    return None
                added.append(Added(cut, make, heads_by_length(row.tag) if row.tag not in tags else ()))
                tags.append(row.tag)
            elif row.is_compared:
                (pans if row.tag == TAG_PAN else compared).append(Compared(cut, make, place))
        pan = heads.places.get(TAG_PAN)
        # (no other tag has two rows, and the PAN has the first ones)
        if (
            pan is None
            and tags[:1] != [TAG_PAN]
            or any(not it.heads and tag != TAG_PAN for tag, it in zip(tags, added))
        ):
            return None
        return LineForm(heads.mask, int.from_bytes(chip, "big") & heads.mask, compared, added, pan, pans)


class ChipHeads(NamedTuple):
    """The bits of chip data that are tags, lengths and zeros between objects; where the table's tags have values."""

    mask: int
    places: Mapping[str, slice]


def heads_of(chip: bytes) -> Optional[ChipHeads]:
    """The heads of whole chip data, and the first object of each tag; None if they are torn."""
    places: dict[str, slice] = {}
    mask, at, size = bytearray(len(chip)), 0, len(chip)
    while at < size:
        begin = at
        if not chip[at]:
            at += 1
            mask[begin] = 0xFF
            continue
        try:
            value = end_of_tag(chip, at)
            name = TAGS.get(chip[at:value])
            length, value = length_at(chip, value)
        except Torn:
            return None
        at = value + length
        if at > size:
            return None
        mask[begin:value] = b"\xff" * (value - begin)
        if name is not None:
            places.setdefault(name, slice(value, at))
    return ChipHeads(int.from_bytes(mask, "big"), places)


def heads_by_length(tag: str) -> "list[bytes]":
    """Tag and length of an object, by the length: a PAN, which is the longest, has ten bytes at most."""
    return [bytes.fromhex(tag) + bytes([size]) for size in range(MOST_VALUE + 1)]


def maker_of(row: ElementRow, form: Format) -> Maker:
    """What makes the value of a row's tag of an element's bytes, which are of its format."""
    read = reader_of(form)
    is_digits = form.kind == "n" and form.digits is not None and is_plain(form.digits) and form.fill is None
    is_amount = row.tag == TAG_AMOUNT and form.kind == "n" and form.fill is None and form.length is None
    if row.tag == TAG_PAN and row.number == mapping.PAN and is_digits:
        return pan_maker(form.length.width if form.length is not None else 0)
    if is_amount and form.size == mapping.AMOUNT_DIGITS and (is_digits or form.digits is None):
        return unhexlified if is_digits else as_it_is

    def make(piece: bytes) -> Optional[bytes]:
        text = str(read(piece, 0)[0])
        return value_of(row.tag, row.number, text, NO_DAY) if row.length in (0, len(text)) else None

    return cast(Maker, functools.lru_cache(VALUES)(make)) if row.number in FEW else make


unhexlified, as_it_is = cast(Maker, unhexlify), cast(Maker, bytes)


def pan_maker(width: int) -> Maker:
    """What makes a PAN of its digits, behind a length of so many bytes."""

    def make(piece: bytes) -> Optional[bytes]:
        digits = piece[width:]
        size = len(digits)
        return unhexlify(digits + b"F" if size % 2 else digits) if size in PAN_DIGITS else None

    return make
