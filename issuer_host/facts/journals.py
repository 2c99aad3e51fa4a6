"""Journals: their names, versions and limits, and their records, cut by names and widths that stand here once."""
import os
import re
from collections.abc import Callable, Iterator
from typing import NamedTuple, Optional, Union

# A journal's name ends so: a dot, the shard's number in two digits, and the version.
SHARD = re.compile(r"\.(?P<shard>\d{2})(?P<version>\.v2)?")
ENDING = ".v2"
# A file of this ending beside the journals is a node's: they are written by the order of a stream alone.
POSITION = ".position"
# The first line of a journal. An old journal, of version 1, has none.
VERSION_LINE = "v2\n"
# Bytes of a record's line, its newline included.
MIN_RECORD_LINE = 28
MAX_RECORD_LINE = 501
# The digits of a PAN in a record: filled with `f`.
PAN_DIGITS = 20

# The bytes of a decided request, in order.
REQUEST_BYTES = {
    "pan": PAN_DIGITS // 2,
    "psn": 1,
    "aip": 2,
    "atc": 2,
    "tvr": 5,
    "date": 3,
    "kind": 1,
    "amount": 6,
    "other_amount": 6,
    "country": 2,
    "currency": 2,
    "unpredictable_number": 4,
    "cid": 1,
    "issuer_data": 32,
    "cryptogram": 8,
}


class Request(NamedTuple):
    """The fields of a decided request: `REQUEST_BYTES` has their widths, in this order. Hexadecimal, but the ATC."""

    pan: str
    psn: str
    aip: str
    atc: int
    tvr: str
    date: str
    kind: str
    amount: str
    other_amount: str
    country: str
    currency: str
    unpredictable_number: str
    cid: str
    issuer_data: str
    cryptogram: str

    @property
    def dki(self) -> int:
        """The derivation key index: byte 3 of the issuer application data."""
        return int(self.issuer_data[4:6], 16)


class Decided(NamedTuple):
    """A decided request: the reply has the response code, whether the issuer approves, and the bytes for the card."""

    request: Request
    code: str
    approves: bool
    data: str

    @property
    def card(self) -> tuple[str, str]:
        return self.request.pan, self.request.psn


class Queued(NamedTuple):
    """A queued command."""

    pan: str
    psn: str
    command: str

    @property
    def card(self) -> tuple[str, str]:
        return self.pan, self.psn


class StatusSet(NamedTuple):
    """A status that a card was given."""

    pan: str
    psn: str
    status: int

    @property
    def card(self) -> tuple[str, str]:
        return self.pan, self.psn


Record = Union[Decided, Queued, StatusSet]


def request_of(digits: str) -> Request:
    """Cuts a decided request's bytes into its fields. Other bytes are a ValueError."""
    if len(digits) != 2 * sum(REQUEST_BYTES.values()):
        raise ValueError(f"no request of a record, of {len(digits)} digits")
    fields, at = {}, 0
    for name, width in REQUEST_BYTES.items():
        fields[name] = digits[at : at + 2 * width]
        at += 2 * width
    pan, atc = fields.pop("pan").rstrip("f"), int(fields.pop("atc"), 16)
    return Request(pan=pan, atc=atc, **fields)


def record_of(line: str) -> Record:
    """Returns the record of a journal's line, without its newline. A line of another form is a ValueError."""
    kind, *words = line.split(" ")
    if kind == "d" and len(words) == 4:
        request, code, approves, data = words
        return Decided(request_of(request), code, approves == "1", data)
    if kind in ("q", "s") and len(words) == 3:
        pan, psn, last = words
        card = pan.rstrip("f"), psn
        return Queued(*card, last) if kind == "q" else StatusSet(*card, int(last))
    raise ValueError(f"no record of a journal, of {len(line)} characters")


def card_of_record(line: str) -> tuple[str, str]:
    """Returns the PAN and PSN of a journal's line. A line of another form is a ValueError."""
    return record_of(line).card


def records_of(path: str, opener: Optional[Callable[[str, int], int]] = None) -> Iterator[str]:
    """The lines of a journal's records. A file of another version is a ValueError."""
    with open(path, encoding="ascii", opener=opener) as lines:
        if lines.readline() != VERSION_LINE:
            raise ValueError(f"{path} is no journal of version 2")
        for line in lines:
            yield line.rstrip("\n")


def journal_path(name: str, shard: int) -> str:
    """Returns the path of a shard's journal, by the journals' name."""
    return old_journal_path(name, shard) + ENDING


def old_journal_path(name: str, shard: int) -> str:
    """Returns the path of a shard's old journal, of version 1: the program reads it, and copies its records."""
    return f"{name}.{shard:02d}"


class Shards(NamedTuple):
    """The numbers of the shards that have an old journal, and of those that have a journal, in order."""

    olds: list[int]
    journals: list[int]


def shards_of_files(name: str) -> Shards:
    """Returns the shards that have a file of an old journal's name, and those that have one of a journal's."""
    folder, base = os.path.split(name)
    found = Shards([], [])
    for entry in os.listdir(folder or "."):
        ending = SHARD.fullmatch(entry[len(base) :]) if entry.startswith(base) else None
        if ending:
            (found.journals if ending["version"] else found.olds).append(int(ending["shard"]))
    return Shards(sorted(found.olds), sorted(found.journals))


def journals_of(name: str) -> list[str]:
    """Returns the paths of all journals of a name that exist, the old ones first."""
    olds, journals = shards_of_files(name)
    return [old_journal_path(name, shard) for shard in olds] + [journal_path(name, shard) for shard in journals]
