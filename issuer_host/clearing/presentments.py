"""A record of a clearing file as a line that `clear` takes, or why it gives none."""

import datetime
from typing import NamedTuple, Optional, Union

from issuer_host.facts.limits import MAX_OPTION_BYTES
from issuer_host.gateway import mapping, requests
from issuer_host.gateway.message import Codec, Message, Unreadable

# First presentments are messages of these classes: function and origin vary from link to link.
PRESENTMENT_CLASS = "2"
ACQUIRER_REFERENCE = 31
COMPARED = (requests.TAG_PAN, requests.TAG_PSN)


class Presented(NamedTuple):
    """What a record has: its type, the card, the amount and reference as presented, and the line if it gives one.

    If it gives none, `why` says so. Whether that is a fault, or as the record is meant to be, says `is_bad`.
    """

    kind: str = ""
    pan: str = ""
    amount: str = ""
    certified: str = ""
    reference: str = ""
    line: str = ""
    why: str = ""
    is_bad: bool = False


def presented(codec: Codec, data: bytes, today: datetime.date) -> Presented:
    """What a record comes to."""
    try:
        message = codec.unpack(data)
    except Unreadable as fault:
        kind = fault.so_far.kind if fault.so_far is not None else ""
        return Presented(kind=kind, why=f"it can't be read at byte {fault.at}: {fault.why}", is_bad=True)
    found = Presented(
        message.kind,
        text_of(message, mapping.PAN),
        text_of(message, mapping.AMOUNT),
        "",
        text_of(message, ACQUIRER_REFERENCE),
    )
    if message.kind[1] != PRESENTMENT_CLASS:
        return found._replace(why="it is no presentment")
    chip = message.elements.get(mapping.CHIP)
    if not isinstance(chip, bytes) or not chip:
        return found._replace(why="it has no chip data (element 55)")
    return of_chip_data(codec, message, chip, found, today)


def of_chip_data(codec: Codec, message: Message, chip: bytes, found: Presented, today: datetime.date) -> Presented:
    """The line of a presentment: as a request's is made, but that its amount may be another one than the certified."""
    of_chip = requests.first_objects(chip)
    certified = of_chip.get(mapping.AMOUNT_TAG, b"").hex()
    found = found._replace(certified=certified)
    made = objects_beside(codec, message, of_chip, today)
    if isinstance(made, str):
        return found._replace(why=made, is_bad=True)
    pan = of_chip.get(requests.TAG_PAN, made.get(requests.TAG_PAN))
    if pan is None:
        return found._replace(why="it has no PAN: neither elements 2 and 35 nor tag 5A", is_bad=True)
    added = [(tag, value) for tag, value in made.items() if tag not in of_chip]
    data = b"".join(bytes.fromhex(tag) + bytes([len(value)]) + value for tag, value in added) + chip
    if len(data) > MAX_OPTION_BYTES:
        return found._replace(
            why=f"its chip data have {len(data)} bytes, and {MAX_OPTION_BYTES} are the most", is_bad=True
        )
    return found._replace(pan=pan.hex().rstrip("f"), line=f"A {data.hex()}")


def objects_beside(
    codec: Codec, message: Message, of_chip: "dict[str, bytes]", today: datetime.date
) -> "Union[dict[str, bytes], str]":
    """The objects that the elements beside 55 make, or why they can't be those of its card."""
    made: "dict[str, bytes]" = {}
    for number, tag, _, length in codec.dialect.rows:
        text = message.elements.get(number)
        if not isinstance(text, str) or tag in of_chip and tag not in COMPARED:
            continue
        value: Optional[bytes] = requests.value_of(tag, number, text, today) if length in (0, len(text)) else None
        if value is None:
            return f"element {number} has no value that tag {tag} may have"
        if tag in of_chip and requests.normal(tag, of_chip[tag]) != value or made.get(tag, value) != value:
            return f"element {number} differs from tag {tag}"
        made[tag] = value
    return made


def text_of(message: Message, number: int) -> str:
    value = message.elements.get(number, "")
    return value.strip() if isinstance(value, str) else ""
