"""Request lines and their chip data (BER-TLV, EMV 4.3 Book 3, Annex B; fields and refusals: docs/formats/lines.md)."""
import re
from collections.abc import Iterator
from typing import NamedTuple

from oracle.suites import IDENTIFIERS, Suite


class Refused(Exception):
    """A refusal: the words after `refused`."""


class Request(NamedTuple):
    """The fields of a request; account numbers as texts of digits, the rest as bytes."""

    pan: str
    psn: str
    aip: bytes
    atc: int
    tvr: bytes
    date: bytes
    kind: bytes
    amount: bytes
    other: bytes
    country: bytes
    currency: bytes
    number: bytes
    cid: int
    data: bytes
    cryptogram: bytes

    @property
    def suite(self) -> Suite:
        return Suite(self.data[1])

    @property
    def dki(self) -> int:
        return self.data[2]

    @property
    def cvr(self) -> bytes:
        return self.data[3:8]

    @property
    def script_count(self) -> int:
        return self.cvr[3] >> 4

    @property
    def register(self) -> int:
        """The card's last online ATC register."""
        return int.from_bytes(self.data[17:19], "big")

    @property
    def amount_value(self) -> int:
        return int(self.amount.hex())

    def is_for_an_arqc(self) -> bool:
        return self.cid & 0xC0 == 0x80 and self.cvr[0] & 0xF0 == 0xA0

    def cryptogram_input(self) -> bytes:
        """The 65 bytes that the application cryptogram is the MAC of.

        They are those of EMV 4.3 Book 2, 8.1.1, and the issuer application data.
        """
        parts = (
            self.amount,
            self.other,
            self.country,
            self.tvr,
            self.currency,
            self.date,
            self.kind,
            self.number,
            self.aip,
        )
        return b"".join(parts) + self.atc.to_bytes(2, "big") + self.data


# The fields in the order in which they are looked at: tag, least and greatest length, and whether a request has to have
# it.
FIELDS = [
    ("5a", 4, 10, True),
    ("5f34", 1, 1, False),
    ("82", 2, 2, True),
    ("95", 5, 5, True),
    ("9a", 3, 3, True),
    ("9c", 1, 1, True),
    ("9f02", 6, 6, True),
    ("9f03", 6, 6, False),
    ("9f10", 32, 32, True),
    ("9f1a", 2, 2, True),
    ("5f2a", 2, 2, True),
    ("9f26", 8, 8, True),
    ("9f27", 1, 1, True),
    ("9f36", 2, 2, True),
    ("9f37", 4, 4, True),
]


def is_decimal(value: bytes) -> bool:
    return value.hex().isdigit()


def is_pan(value: bytes) -> bool:
    """Decimal digits, 8 to 19, then F nibbles only."""
    return re.fullmatch("[0-9]{8,19}f*", value.hex()) is not None


def is_issuer_data(value: bytes) -> bool:
    return value[0] == 0x0F and value[1] in IDENTIFIERS and value[16] == 0x0F


RULES = {"5a": is_pan, "5f34": is_decimal, "9f02": is_decimal, "9f10": is_issuer_data}


def tag_length(data: bytes, at: int) -> int | None:
    """How many bytes the tag takes, or None where it isn't whole or has more than three bytes."""
    length = 1
    if data[at] & 0x1F == 0x1F:
        length = 2
        while at + length <= len(data) and data[at + length - 1] & 0x80:
            length += 1
    return length if length <= 3 and at + length <= len(data) else None


def value_bounds(data: bytes, at: int) -> tuple[int, int] | None:
    """Where the value begins and ends whose length stands here, or None where it isn't whole or of another form."""
    if at >= len(data):
        return None
    more = {0x81: 1, 0x82: 2}.get(data[at], 0)
    if data[at] >= 0x80 and more == 0 or at + 1 + more > len(data):
        return None
    begin = at + 1 + more
    end = begin + (int.from_bytes(data[at + 1 : begin], "big") if more else data[at])
    return (begin, end) if end <= len(data) else None


def objects(data: bytes) -> Iterator[tuple[str, bytes]]:
    """The BER-TLV objects: tag in hexadecimal and value. Raises refusal 2 with the place of one that isn't whole."""
    at = 0
    while at < len(data):
        if data[at] == 0:
            at += 1
            continue
        length = tag_length(data, at)
        bounds = value_bounds(data, at + length) if length else None
        if length is None or bounds is None:
            raise Refused(f"2 {at}")
        begin, end = bounds
        yield data[at : at + length].hex(), data[begin:end]
        at = end


def is_right(tag: str, least: int, most: int, value: bytes) -> bool:
    return least <= len(value) <= most and (tag not in RULES or RULES[tag](value))


def read_request(data: bytes) -> Request:
    """The request that chip data says. Refusals 2 to 5 are raised in the order of their numbers."""
    values: dict[str, list[bytes]] = {}
    for tag, value in objects(data):
        values.setdefault(tag, []).append(value)
    for tag, _, _, needed in FIELDS:
        if needed and tag not in values:
            raise Refused(f"3 {tag}")
    for tag, least, most, _ in FIELDS:
        if tag in values and not is_right(tag, least, most, values[tag][0]):
            raise Refused(f"4 {tag}")
    for tag, _, _, _ in FIELDS:
        if len(values.get(tag, [])) > 1:
            raise Refused(f"5 {tag}")
    first = {tag: found[0] for tag, found in values.items()}
    return Request(
        pan=first["5a"].hex().rstrip("f"),
        psn=first.get("5f34", b"\0").hex(),
        aip=first["82"],
        atc=int.from_bytes(first["9f36"], "big"),
        tvr=first["95"],
        date=first["9a"],
        kind=first["9c"],
        amount=first["9f02"],
        other=first.get("9f03", bytes(6)),
        country=first["9f1a"],
        currency=first["5f2a"],
        number=first["9f37"],
        cid=first["9f27"][0],
        data=first["9f10"],
        cryptogram=first["9f26"],
    )


# The greatest part of a line that begins some line of a form: each part is tried only where the one before it is whole.
HEX = "[0-9a-fA-F]"
FRONT = re.compile(
    rf"(A( {HEX}{{0,2048}})?"
    rf"|Q( ([0-9]{{8,19}}( ([0-9]{{2}}( {HEX}{{0,256}})?|[0-9]?))?|[0-9]{{0,7}}))?"
    rf"|S( ([0-9]{{8,19}}( ([0-9]{{2}}( [0-9]?)?|[0-9]?))?|[0-9]{{0,7}}))?)?".encode()
)
WHOLE = re.compile(
    rf"A (?P<ask>({HEX}{HEX}){{1,1024}})"
    rf"|Q (?P<queue_pan>[0-9]{{8,19}}) (?P<queue_psn>[0-9]{{2}}) (?P<command>({HEX}{HEX}){{1,128}})"
    rf"|S (?P<set_pan>[0-9]{{8,19}}) (?P<set_psn>[0-9]{{2}}) (?P<status>[0-9])".encode()
)


class Ask(NamedTuple):
    """A line of the form `A`: chip data."""

    data: bytes


class Queue(NamedTuple):
    """A line of the form `Q`."""

    pan: str
    psn: str
    command: bytes


class SetStatus(NamedTuple):
    """A line of the form `S`."""

    pan: str
    psn: str
    status: int


def read_line(line: bytes) -> Ask | Queue | SetStatus:
    """What a line asks, by its form."""
    whole = WHOLE.fullmatch(line)
    if whole is None:
        front = FRONT.match(line)
        raise Refused(f"1 {front.end() + 1 if front else 1}")
    part = {name: text.decode() for name, text in whole.groupdict().items() if text is not None}
    if "ask" in part:
        return Ask(bytes.fromhex(part["ask"]))
    if "command" in part:
        return Queue(part["queue_pan"], part["queue_psn"], bytes.fromhex(part["command"]))
    return SetStatus(part["set_pan"], part["set_psn"], int(part["status"]))


# EMV 4.3 Book 3, 6.5: card block, application unblock, application block, PIN change/unblock, put data, update record.
INSTRUCTIONS = {0x16, 0x18, 0x1E, 0x24, 0xDA, 0xDC}


def is_command(command: bytes) -> bool:
    """Whether the bytes are a command that the host sends.

    It has class, instruction, two parameters, and 0 to 64 bytes of data.
    """
    return 4 <= len(command) <= 68 and command[0] & 0x0F == 4 and command[1] in INSTRUCTIONS
