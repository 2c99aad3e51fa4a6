"""What each member of a configuration has to be (docs/formats/configuration.md), as the table that finds faults."""
from __future__ import annotations

import json
import re
from collections.abc import Callable
from dataclasses import dataclass

from issuer_host.configuration.json_text import Members, Node, OtherNumber, Value
from issuer_host.facts.limits import MAX_CARDS, MAX_KEY_SETS, MAX_SHARDS, MAX_TABLE_ROWS
from issuer_host.facts.masks import masked

MOST_AMOUNT = 999_999_999_999
ALL_DIGITS = re.compile("[0-9]+", re.ASCII)
# A longer value may be a PAN or a key that stands in the wrong place.
MOST_SHOWN = 13


@dataclass(frozen=True)
class Rule:
    """What a member's value has to be: in words, as a test, and how a message shows another value."""

    words: str
    holds: Callable[[Value], bool]
    shows: Callable[[Value], str]


@dataclass(frozen=True)
class Part:
    """A list of the configuration: its number in `stop 2 PART INDEX`, its name, and how many elements it may have."""

    number: int
    name: str
    most: int
    element: str


SHARDS = 2
KEYS = Part(3, "keys", MAX_KEY_SETS, "a key set")
CARDS = Part(4, "cards", MAX_CARDS, "a card")
TABLE = Part(5, "table", MAX_TABLE_ROWS, "a row")


def kind_of(value: Value) -> str:
    """Names the kind of a value, and its size."""
    if isinstance(value, Members):
        return "an object"
    if isinstance(value, list):
        return f"a list of {len(value)}"
    if isinstance(value, str):
        return "an empty string" if not value else f"a string of {len(value)} characters"
    return "a number" if isinstance(value, OtherNumber) or type(value) is int else json.dumps(value)


def shown(value: Value) -> str:
    """Shows a value that is no secret."""
    if isinstance(value, (Members, list)):
        return kind_of(value)
    text = value.text if isinstance(value, OtherNumber) else json.dumps(value)
    return text if len(text.strip('"')) <= MOST_SHOWN else kind_of(value)


def shown_as_secret(value: Value) -> str:
    return kind_of(value)


def shown_as_pan(value: Value) -> str:
    """Shows an account number by its first and last digits alone."""
    if isinstance(value, str) and ALL_DIGITS.fullmatch(value) and 8 <= len(value) <= 19:
        return f'"{masked(value)}"'
    return kind_of(value)


def whole(least: int, most: int) -> Rule:
    def holds(value: Value) -> bool:
        return type(value) is int and least <= value <= most

    return Rule(f"a whole number from {least} to {most}, without point, exponent and sign", holds, shown)


def text(words: str, pattern: str, shows: Callable[[Value], str] = shown) -> Rule:
    form = re.compile(pattern, re.ASCII)

    def holds(value: Value) -> bool:
        return isinstance(value, str) and form.fullmatch(value) is not None

    return Rule(words, holds, shows)


def hexadecimal(digits: int, shows: Callable[[Value], str] = shown) -> Rule:
    return text(f"a string of {digits} hexadecimal digits, without blanks", f"[0-9A-Fa-f]{{{digits}}}", shows)


def is_status(value: Value) -> bool:
    return value is None or (type(value) is int and 0 <= value <= 9)


def is_flag(value: Value) -> bool:
    return isinstance(value, bool)


SHARD_RULE = whole(1, MAX_SHARDS)
MASTER_KEY = hexadecimal(32, shown_as_secret)
# A key set's members that each has, those that come in a pair, and the one that may be absent.
KEY_SET: dict[str, Rule] = {
    "dki": whole(0, 255),
    "option": text('"A" or "B"', "[AB]"),
    "ac": MASTER_KEY,
    "smi": MASTER_KEY,
}
AES_PAIR = ("aes_ac", "aes_smi")
CONFIDENTIALITY = "smc"
# Keys that a token wraps: a member of the key set, with a member for each such key, which has these two.
WRAPPED, WRAPPED_KEY, CHECK_VALUE = "wrapped", "kwp", "kcv"
WRAPPED_DIGITS, CHECK_DIGITS = 48, 6
WRAPPED_RULES: dict[str, Rule] = {
    WRAPPED_KEY: hexadecimal(WRAPPED_DIGITS, shown_as_secret),
    CHECK_VALUE: hexadecimal(CHECK_DIGITS),
}
KEY_NAMES = ("ac", "smi", *AES_PAIR, CONFIDENTIALITY)
CARD: dict[str, Rule] = {
    "pan": text("a string of 8 to 19 decimal digits", "[0-9]{8,19}", shown_as_pan),
    "psn": text("a string of 2 decimal digits", "[0-9]{2}"),
    "method": whole(1, 2),
}
ROW: dict[str, Rule] = {
    "tvr_mask": hexadecimal(10),
    "tvr_value": hexadecimal(10),
    "cvr_mask": hexadecimal(10),
    "cvr_value": hexadecimal(10),
    "least": whole(0, MOST_AMOUNT),
    "most": whole(0, MOST_AMOUNT),
    "status": Rule("a whole number from 0 to 9, or null", is_status, shown),
    "arc": hexadecimal(4),
    "approve": Rule("true or false", is_flag, shown),
    "csu": hexadecimal(8),
}
# What the last row has to be, so that one row fits every request.
FITS_ALL: dict[str, Value] = {
    "tvr_mask": "0000000000",
    "tvr_value": "0000000000",
    "cvr_mask": "0000000000",
    "cvr_value": "0000000000",
    "least": 0,
    "most": MOST_AMOUNT,
    "status": None,
}
# All members that the host or the service knows, by the list whose elements have them; those of the whole under the
# empty name.
KNOWN: dict[str, tuple[str, ...]] = {
    "": ("shards", KEYS.name, CARDS.name, TABLE.name, "partition"),
    KEYS.name: (*KEY_SET, *AES_PAIR, CONFIDENTIALITY, WRAPPED),
    CARDS.name: tuple(CARD),
    TABLE.name: tuple(ROW),
}


def rules_of_key_set(members: Members) -> dict[str, Rule]:
    """Returns what the members of this key set have to be: keys for AES come as a pair, in clear or wrapped."""
    wrapped = wrapped_names(members)
    rules = dict(KEY_SET)
    if any(members.get(name) or name in wrapped for name in AES_PAIR):
        rules.update(dict.fromkeys(AES_PAIR, MASTER_KEY))
    if members.get(CONFIDENTIALITY):
        rules[CONFIDENTIALITY] = MASTER_KEY
    if members.get(WRAPPED):
        rules[WRAPPED] = Rule("an object with a member for each wrapped key", is_object, kind_of)
    return {name: rule for name, rule in rules.items() if name not in wrapped or members.get(name)}


def is_object(value: Value) -> bool:
    return isinstance(value, Members)


def wrapped_names(members: Members) -> dict[str, Node]:
    """Returns the wrapped keys of a key set by their names; none if it has none."""
    found = members.get(WRAPPED)
    items = found.value.items if found and isinstance(found.value, Members) else []
    return {member.name: member.node for member in items}


def text_in(node: Node, name: str) -> str:
    """Returns a member of an element that has passed its rules, as the text that it is."""
    member = node.value.get(name) if isinstance(node.value, Members) else None
    return member.value if member and isinstance(member.value, str) else ""


def number_in(node: Node, name: str) -> int:
    """Returns a member of an element that has passed its rules, as the number that it is."""
    member = node.value.get(name) if isinstance(node.value, Members) else None
    return member.value if member and type(member.value) is int else 0
