"""The tables of docs/integrate/iso8583.md as data: what becomes of a message's elements, and of an answer.

`tests/gateway/parts` compares page and code.
"""

import functools
from typing import NamedTuple, Optional

from issuer_host.facts.answers import RefusalNumber

EDITIONS = ("1987", "1993", "2003")

# The elements that the gateway itself reads or writes. They have one number in all editions, the date apart.
PAN, PROCESSING, AMOUNT, TRACK_2, PSN = 2, 3, 4, 35, 23
STAN, RRN, TERMINAL = 11, 37, 41
APPROVAL, CODE, CURRENCY, CHIP = 38, 39, 49, 55
DATE = {"1987": 13, "1993": 12, "2003": 12}
DATE_LENGTH = {"1987": 4, "1993": 12, "2003": 14}
CODE_LENGTH = {"1987": 2, "1993": 3, "2003": 4}
AMOUNT_TAG, CURRENCY_TAG = "9F02", "5F2A"
# An amount and its currency: of the transaction, of the settlement, and as the cardholder is billed. Where a link
# converts amounts, any of them may be the one that the card certified.
AMOUNTS = ((AMOUNT, CURRENCY), (5, 50), (6, 51))
AMOUNT_DIGITS = 12
# An amount of 2003: its currency, its exponent, and twelve digits.
LONG_AMOUNT_DIGITS, LONG_CURRENCY, LONG_AMOUNT = 16, slice(0, 3), slice(4, 16)


class RequestRow(NamedTuple):
    """What an element becomes in a request line: the tag of an object, in hexadecimal.

    `is_compared`: if element 55 has the tag too, whether the two have to agree.
    """

    element: dict[str, int]
    tag: str
    is_compared: bool
    # The element's length, or 0 if it varies.
    length: dict[str, int]


def both(number: int) -> dict[str, int]:
    return {edition: number for edition in EDITIONS}


# In the order in which a line has their objects. Each is taken only if element 55 lacks the tag.
REQUEST_ROWS = (
    RequestRow(both(PAN), "5A", True, both(0)),
    RequestRow(both(TRACK_2), "5A", True, both(0)),
    RequestRow(both(PSN), "5F34", True, both(3)),
    RequestRow(both(AMOUNT), AMOUNT_TAG, True, both(AMOUNT_DIGITS)),
    RequestRow(both(CURRENCY), CURRENCY_TAG, True, both(3)),
    RequestRow(both(PROCESSING), "9C", False, both(6)),
    RequestRow(DATE, "9A", False, DATE_LENGTH),
)


class ElementRow(NamedTuple):
    """A row of one edition."""

    number: int
    tag: str
    is_compared: bool
    length: int


def rows_of(edition: str, has_long_amounts: bool) -> tuple[ElementRow, ...]:
    """The rows of an edition. Long amounts have their currency within."""
    rows = [ElementRow(it.element[edition], it.tag, it.is_compared, it.length[edition]) for it in REQUEST_ROWS]
    if has_long_amounts:
        rows = [
            it._replace(number=AMOUNT, length=LONG_AMOUNT_DIGITS) if it.tag in (AMOUNT_TAG, CURRENCY_TAG) else it
            for it in rows
        ]
    return tuple(rows)


class Outcome(NamedTuple):
    """What a message came to: its code in element 39, by edition."""

    code: dict[str, str]


def of_2003(of_1993: str) -> str:
    """The action code of 2003: that of 1993 with a zero after its first digit, a 1 where the message is at fault."""
    return f"{of_1993[0]}{'1' if of_1993[0] == '9' else '0'}{of_1993[1:]}"


def outcome(of_1987: str, of_1993: str) -> Outcome:
    return Outcome({"1987": of_1987, "1993": of_1993, "2003": of_2003(of_1993)})


ACCEPTED = outcome("00", "800")
BAD_FORMAT = outcome("30", "904")
UNSUPPORTED = outcome("40", "115")
NO_DECISION = outcome("91", "907")
# A request that was reversed before: it isn't decided, or not approved, any more.
REVERSED = outcome("94", "913")
MALFUNCTION = outcome("96", "909")

REFUSALS: dict[RefusalNumber, Outcome] = {
    RefusalNumber.BAD_LINE: MALFUNCTION,
    RefusalNumber.BAD_TLV: BAD_FORMAT,
    RefusalNumber.MISSING: BAD_FORMAT,
    RefusalNumber.BAD_FIELD: BAD_FORMAT,
    RefusalNumber.REPEATED: BAD_FORMAT,
    RefusalNumber.UNKNOWN_CARD: outcome("14", "111"),
    RefusalNumber.NOT_ARQC: outcome("12", "902"),
    RefusalNumber.UNKNOWN_KEY: MALFUNCTION,
    RefusalNumber.BAD_CRYPTOGRAM: outcome("05", "100"),
    RefusalNumber.BELOW_WINDOW: outcome("05", "100"),
    RefusalNumber.TAKEN: outcome("05", "100"),
    # (only if it outlasts the time limit)
    RefusalNumber.PENDING: NO_DECISION,
    RefusalNumber.STORE_FAULT: NO_DECISION,
}

# The action codes of 1993 for response codes of the host's table; in 1987 element 39 is the response code itself.
ACTION_CODES = {
    "00": "000",
    "01": "107",
    "02": "108",
    "03": "109",
    "04": "200",
    "05": "100",
    "10": "002",
    "11": "003",
    "12": "902",
    "13": "110",
    "14": "111",
    "33": "201",
    "34": "202",
    "36": "204",
    "38": "206",
    "41": "208",
    "43": "209",
    "51": "116",
    "54": "101",
    "55": "117",
    "57": "119",
    "58": "120",
    "59": "102",
    "61": "121",
    "62": "104",
    "63": "122",
    "65": "123",
    "75": "106",
    "91": "907",
    "96": "909",
}
# For a response code that the edition can't express: by whether the host approves.
OTHER_CODES = {True: outcome("00", "000"), False: outcome("05", "100")}


def code_of(response_code: bytes, approves: bool, edition: str) -> str:
    """Element 39 of a decision."""
    text = response_code.decode("latin-1")
    if edition == "1987" and text.isascii() and text.isalnum():
        return text
    if edition != "1987" and text in ACTION_CODES:
        return ACTION_CODES[text] if edition == "1993" else of_2003(ACTION_CODES[text])
    return OTHER_CODES[approves].code[edition]


# What is done with a message, by its type's second, third and fourth digits (class, function, origin).
DECIDE, ECHO, DECLINE, PASS_OVER = "decide", "echo", "decline", "pass over"
ACKNOWLEDGE = "acknowledge"
# What is done is kept for so many types.
KINDS = 1024
REQUEST_CLASSES, REVERSAL_CLASS, NETWORK_CLASS = "12", "4", "8"
ACQUIRER = "01"


@functools.lru_cache(KINDS)
def what_to_do(kind: str) -> str:
    """Says what is done with a message of a type, as 0100."""
    of_class, function, origin = kind[1], kind[2], kind[3]
    if function not in "02":
        return PASS_OVER
    if of_class == NETWORK_CLASS:
        return ECHO
    if of_class in REQUEST_CLASSES and function == "0" and origin in ACQUIRER:
        return DECIDE
    return DECLINE


def is_repeat(kind: str) -> bool:
    """Whether a message of a type is marked as a repeat, as 0101."""
    return int(kind[3]) % 2 == 1


def first_type(kind: str) -> str:
    """The type of a message that isn't marked as a repeat: 0420 of 0421."""
    return f"{kind[:3]}{int(kind[3]) - int(kind[3]) % 2}"


def response_type(kind: str) -> str:
    """The type of a message's response: that of 0100 and of its repeat 0101 is 0110."""
    function, origin = int(kind[2]) + 1, kind[3]
    return f"{kind[:2]}{function}{int(origin) - int(origin) % 2}"


def refusal_of(text: str) -> Optional[RefusalNumber]:
    """The refusal of this number, or None."""
    try:
        return RefusalNumber(int(text))
    except ValueError:
        return None
