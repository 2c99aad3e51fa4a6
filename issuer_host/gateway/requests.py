"""A message as a request line, by the rows of the table. A message that becomes none has an outcome at once."""

import datetime
from typing import NamedTuple, Optional, Union

from issuer_host.facts.limits import MAX_OPTION_BYTES
from issuer_host.facts.request_lines import Torn, objects_of
from issuer_host.gateway import currencies, mapping
from issuer_host.gateway.dialect import Dialect
from issuer_host.gateway.message import Message, SEPARATOR
from issuer_host.orders.declines import body_of, decline_of

# Chip data of a line.
MAX_CHIP_DATA = MAX_OPTION_BYTES
HALF_A_YEAR = datetime.timedelta(days=183)
TAG_PAN, TAG_PSN, TAG_TYPE = "5A", "5F34", "9C"
TAG_AMOUNT, TAG_CURRENCY = mapping.AMOUNT_TAG, mapping.CURRENCY_TAG
# What a link may convert: then the amounts are compared by their currencies.
CONVERTED = (TAG_AMOUNT, TAG_CURRENCY)
# The tags of the table, by their bytes.
TAGS = {bytes.fromhex(row.tag): row.tag for row in mapping.REQUEST_ROWS}


class RequestLine(NamedTuple):
    """A line, and the digits of its PAN: a card's lines go to one partition, one after another."""

    line: str
    pan: str
    # Whether the message is marked as a repeat of one that was sent before.
    is_repeat: bool = False
    # The status by which the host declines it, if its account does; otherwise nothing.
    decline: str = ""

    @property
    def body(self) -> str:
        """What is put: the line, or the three lines of an account's decline."""
        return body_of(self.line, int(self.decline)) if self.decline else self.line


class Settled(NamedTuple):
    """A message that no host is asked about: its outcome, and why."""

    outcome: mapping.Outcome
    why: str


class Disagreement(Exception):
    """Elements that don't fit, and which."""


def line_of(dialect: Dialect, message: Message, today: datetime.date) -> Union[RequestLine, Settled]:
    """The request line of a message, or what it comes to without one."""
    chip = message.elements.get(mapping.CHIP)
    if not isinstance(chip, bytes) or not chip:
        return Settled(mapping.UNSUPPORTED, "it has no chip data (element 55)")
    of_chip = first_objects(chip)
    try:
        of_message = objects_beside(dialect, message, of_chip, today)
        if dialect.is_converted:
            check_converted(message, of_message, of_chip)
    except Disagreement as why:
        return Settled(mapping.BAD_FORMAT, str(why))
    if TAG_PAN not in of_message and TAG_PAN not in of_chip:
        return Settled(mapping.BAD_FORMAT, "it has no PAN: neither elements 2 and 35 nor tag 5A")
    added = [(tag, value) for tag, value in of_message.items() if tag not in of_chip]
    data = b"".join(bytes.fromhex(tag) + bytes([len(value)]) + value for tag, value in added) + chip
    if len(data) > MAX_CHIP_DATA:
        return Settled(mapping.BAD_FORMAT, f"its chip data have {len(data)} bytes, and {MAX_CHIP_DATA} are the most")
    pan = of_chip[TAG_PAN] if TAG_PAN in of_chip else of_message[TAG_PAN]
    line = RequestLine(f"A {data.hex()}", pan.hex().rstrip("f"), mapping.is_repeat(message.kind))
    return declined(dialect, message, line) if dialect.declines else line


def declined(dialect: Dialect, message: Message, line: RequestLine) -> Union[RequestLine, Settled]:
    """The line, declined by the status of the code in element 39 if there is one."""
    code = message.elements.get(mapping.CODE)
    if not isinstance(code, str):
        return line
    if code not in dialect.declines:
        return Settled(mapping.BAD_FORMAT, f"element 39 is no code by which this dialect declines: {code!r}")
    found = declined_by(line, dialect.declines[code])
    return found or Settled(mapping.BAD_FORMAT, "its account declines, and element 55 isn't whole")


def declined_by(line: RequestLine, status: int) -> Optional[RequestLine]:
    """The line, declined by a status; None if its chip data aren't whole."""
    found = line._replace(decline=str(status))
    try:
        return found if decline_of(found.body.encode("ascii")) is not None else None
    except ValueError:
        return None


def first_objects(chip: bytes) -> dict[str, bytes]:
    """The first object of each tag that a line's own objects have, up to one that is torn: the host refuses that."""
    found: dict[str, bytes] = {}
    try:
        for tag, value in objects_of(chip):
            name = TAGS.get(tag)
            if name is not None:
                found.setdefault(name, value)
    except Torn:
        pass
    return found


def objects_beside(
    dialect: Dialect, message: Message, of_chip: dict[str, bytes], today: datetime.date
) -> dict[str, bytes]:
    """The objects that the elements beside 55 make, by tag. Elements that have to agree, and don't, are refused."""
    made: dict[str, bytes] = {}
    for number, tag, is_compared, length in dialect.rows:
        text = message.elements.get(number)
        if not isinstance(text, str) or tag in of_chip and not is_compared:
            continue
        value = value_of(tag, number, text, today) if length in (0, len(text)) else None
        if value is None:
            raise Disagreement(f"element {number} has no value that tag {tag} may have")
        if tag in made and made[tag] != value:
            raise Disagreement(f"element {number} differs from another one that makes tag {tag}")
        is_other = tag in of_chip and normal(tag, of_chip[tag]) != value
        if is_other and not (dialect.is_converted and tag in CONVERTED):
            raise Disagreement(f"element {number} differs from tag {tag} of element 55")
        made[tag] = value
    return made


def check_converted(message: Message, of_message: dict[str, bytes], of_chip: dict[str, bytes]) -> None:
    """Of a link that converts: refuses amounts of which none is the one that the card certified.

    Those in the card's currency are compared, and there has to be one.
    """
    amount, currency = of_chip.get(TAG_AMOUNT), of_chip.get(TAG_CURRENCY, of_message.get(TAG_CURRENCY))
    if amount is None or currency is None:
        return
    compared = [it for it, code in mapping.AMOUNTS if currency_beside(message, it, code) == currency]
    for number in compared:
        if amount_value(str(message.elements.get(number))) != amount:
            raise Disagreement(f"element {number} differs from tag {TAG_AMOUNT} of element 55, in its currency")
    if not compared:
        raise Disagreement(f"none of elements 4, 5 and 6 has the currency of tag {TAG_CURRENCY} of element 55")


def currency_beside(message: Message, amount: int, number: int) -> Optional[bytes]:
    """The currency of an amount, as its tag has it: within a long amount, and else of an element of its own.

    None if there is no such amount. An element that names no currency is a Disagreement.
    """
    whole = message.elements.get(amount)
    if isinstance(whole, str) and len(whole) == mapping.LONG_AMOUNT_DIGITS:
        text, number = whole[mapping.LONG_CURRENCY], amount
    else:
        text = message.elements.get(number)  # type: ignore[assignment]
    if text is None:
        return None
    found = currency_value(str(text))
    if found is None:
        raise Disagreement(f"element {number} is no currency of ISO 4217")
    return found if whole is not None else None


def normal(tag: str, value: bytes) -> bytes:
    """A PAN with just as many F as it needs: chip data may have more."""
    return pan_value(value.hex().rstrip("f")) if tag == TAG_PAN else value


def pan_value(digits: str) -> bytes:
    return bytes.fromhex(digits + "F" * (len(digits) % 2))


def value_of(tag: str, number: int, text: str, today: datetime.date) -> Optional[bytes]:
    """The value of an object that an element makes, or None if it makes none."""
    if tag == TAG_PAN:
        digits = text.partition(SEPARATOR)[0] if number == mapping.TRACK_2 else text
        return pan_value(digits) if 8 <= len(digits) <= 19 and digits.isdecimal() else None
    if tag == TAG_CURRENCY:
        return currency_value(text[mapping.LONG_CURRENCY] if number == mapping.AMOUNT else text)
    if not (text.isascii() and text.isdigit()):
        return None
    if tag == TAG_PSN:
        return bytes.fromhex(text[1:]) if text[0] == "0" else None
    if tag == TAG_AMOUNT:
        return amount_value(text)
    if tag == TAG_TYPE:
        return bytes.fromhex(text[:2])
    if number != mapping.DATE["1993"]:
        return date_value(text, today)
    # (with the century where the edition is that of 2003)
    return bytes.fromhex(text[:6] if len(text) == mapping.DATE_LENGTH["1993"] else text[2:8])


def amount_value(text: str) -> Optional[bytes]:
    if len(text) == mapping.LONG_AMOUNT_DIGITS:
        text = text[mapping.LONG_AMOUNT]
    return bytes.fromhex(text) if len(text) == mapping.AMOUNT_DIGITS and text.isascii() and text.isdigit() else None


def currency_value(text: str) -> Optional[bytes]:
    digits = currencies.number_of(text)
    return bytes.fromhex(f"0{digits}") if digits else None


def date_value(month_and_day: str, today: datetime.date) -> Optional[bytes]:
    """A date without a year, in the year in which it is nearest to today."""
    for year in (today.year, today.year - 1, today.year + 1):
        try:
            date = datetime.date(year, int(month_and_day[:2]), int(month_and_day[2:]))
        except ValueError:
            continue
        if abs(date - today) <= HALF_A_YEAR:
            return bytes.fromhex(date.strftime("%y%m%d"))
    return None
