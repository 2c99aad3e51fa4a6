"""What a host accepts and a person hardly meant: rows that never decide, members that nobody knows, weak keys."""
from __future__ import annotations

import difflib
from collections.abc import Hashable, Iterator
from dataclasses import dataclass
from typing import Optional

from issuer_host.configuration import members as rules_of
from issuer_host.configuration.faults import CheckedConfiguration
from issuer_host.configuration.json_text import Members, Node
from issuer_host.configuration.members import (
    AES_PAIR,
    CARDS,
    CHECK_VALUE,
    CONFIDENTIALITY,
    KEYS,
    KNOWN,
    TABLE,
    WRAPPED,
)
from issuer_host.configuration.weak_keys import weaknesses, with_odd_parity
from issuer_host.facts.masks import masked

MOST_SHOWN = 3
MOST_NAME = 30
LIKELY = 0.6
TRIPLE_DES = ("ac", "smi", CONFIDENTIALITY)


@dataclass(frozen=True)
class Caution:
    """What a host accepts, and where it is."""

    offset: int
    says: str


def cautions_of(checked: CheckedConfiguration) -> list[Caution]:
    """Finds the cautions of a configuration, in the order of its members."""
    if checked.root is None:
        return []
    return [
        *of_members(checked.root),
        *of_keys(rows_of(checked, KEYS.name)),
        *of_suites(rows_of(checked, KEYS.name)),
        *of_cards(rows_of(checked, CARDS.name)),
        *of_table(rows_of(checked, TABLE.name), all(fault.part != TABLE.number for fault in checked.faults)),
    ]


def rows_of(checked: CheckedConfiguration, name: str) -> list[tuple[int, Node]]:
    """Returns the elements of a list that break no rule, each with its index."""
    return checked.lists[name].sound if name in checked.lists else []


def of_members(root: Node) -> Iterator[Caution]:
    """Members that no host reads, and members that are there twice."""
    yield from of_object("", root, "")
    members = root.value
    for name in (KEYS.name, CARDS.name, TABLE.name):
        node = members.get(name) if isinstance(members, Members) else None
        for index, element in enumerate(node.value if node and isinstance(node.value, list) else []):
            yield from of_object(f"{name}[{index}]", element, name)


def of_object(at: str, node: Node, of: str) -> Iterator[Caution]:
    members = node.value
    if not isinstance(members, Members):
        return
    path = f"{at}." if at else ""
    for member in members.items:
        if member.name not in KNOWN[of]:
            yield Caution(
                member.offset, f"{path}{shown_name(member.name)} is ignored: {likely(member.name, KNOWN[of])}"
            )
        elif members.by_name[member.name] is not member:
            yield Caution(
                member.offset, f"{path}{member.name} is there twice: the last one counts, and this one doesn't"
            )


def shown_name(name: str) -> str:
    """Shows a member's name, if it is short enough for one and has no odd characters."""
    return name if name.isidentifier() and len(name) <= MOST_NAME else "a member with an odd name"


def likely(name: str, known: tuple[str, ...]) -> str:
    near = difflib.get_close_matches(name.lower(), known, 1, LIKELY)
    return f"is it {near[0]}?" if near else f"the host knows {', '.join(known)}"


def of_keys(rows: list[tuple[int, Node]]) -> Iterator[Caution]:
    """Keys that are weak, and keys that are there twice: wrapped ones by their check values."""
    first_of: dict[Hashable, str] = {}
    for index, row in rows:
        yield from of_wrapped_keys(f"{KEYS.name}[{index}].{WRAPPED}", row, first_of)
        for name in (*TRIPLE_DES, *AES_PAIR):
            text = rules_of.text_in(row, name)
            if not text:
                continue
            at, offset = f"{KEYS.name}[{index}].{name}", offset_of(row, name)
            key = bytes.fromhex(text)
            is_aes = name in AES_PAIR
            for why in of_aes_key(key) if is_aes else weaknesses(key):
                yield Caution(offset, f"{at} is weak: {why}")
            first = first_of.setdefault((is_aes, key if is_aes else with_odd_parity(key)), at)
            if first != at:
                yield Caution(offset, f"{at} is the same key as {first}: each use has a key of its own")


def of_wrapped_keys(at: str, row: Node, first_of: dict[Hashable, str]) -> Iterator[Caution]:
    for name, key in wrapped_in(row).items():
        value = rules_of.text_in(key, CHECK_VALUE).upper()
        first = first_of.setdefault((name in AES_PAIR, CHECK_VALUE, value), f"{at}.{name}")
        if first != f"{at}.{name}":
            says = f"{at}.{name} has the check value of {first}: each use has a key of its own"
            yield Caution(key.offset, says)


def wrapped_in(row: Node) -> dict[str, Node]:
    """Returns the wrapped keys of a key set, each by what it is for."""
    members = row.value.get(WRAPPED) if isinstance(row.value, Members) else None
    found = members.value if members else None
    return {name: member.node for name, member in found.by_name.items()} if isinstance(found, Members) else {}


def has_key(row: Node, name: str) -> bool:
    """Whether a key set has a key for this use, in clear or wrapped."""
    return bool(rules_of.text_in(row, name)) or name in wrapped_in(row)


def of_aes_key(key: bytes) -> Iterator[str]:
    if len(set(key)) == 1:
        yield "all its bytes are equal"


def of_suites(rows: list[tuple[int, Node]]) -> Iterator[Caution]:
    """Key sets that lack keys which others have: cards under such a key set are refused for want of a key."""
    for name, what in ((AES_PAIR[0], "cards with AES keys"), (CONFIDENTIALITY, "PIN changes")):
        lacking = [(index, row) for index, row in rows if not has_key(row, name)]
        if len(lacking) == len(rows):
            continue
        for index, row in lacking:
            dki = rules_of.number_in(row, "dki")
            says = f"{KEYS.name}[{index}] (dki {dki}) has no {name}, and others have one: {what} under it are refused"
            yield Caution(row.offset, says)


def of_cards(rows: list[tuple[int, Node]]) -> Iterator[Caution]:
    """Account numbers with a wrong check digit: the first few, and how many there are."""
    wrong = [(index, row) for index, row in rows if not has_check_digit(rules_of.text_in(row, "pan"))]
    for index, row in wrong[:MOST_SHOWN]:
        pan = masked(rules_of.text_in(row, "pan"))
        yield Caution(
            offset_of(row, "pan"), f"{CARDS.name}[{index}].pan {pan} has a wrong check digit (ISO/IEC 7812-1)"
        )
    if len(wrong) > MOST_SHOWN:
        yield Caution(wrong[MOST_SHOWN][1].offset, f"{len(wrong) - MOST_SHOWN} more PANs have a wrong check digit")


def has_check_digit(pan: str) -> bool:
    """Whether the last digit is that of the Luhn formula (ISO/IEC 7812-1, annex B)."""
    total = 0
    for place, digit in enumerate(reversed(pan)):
        doubled = int(digit) * (1 + place % 2)
        total += doubled - 9 * (doubled > 9)
    return total % 10 == 0


@dataclass(frozen=True)
class Row:
    """A row of the table: the bits that it asks for, its amounts and its status."""

    index: int
    offset: int
    masks: tuple[int, int]
    values: tuple[int, int]
    least: int
    most: int
    status: Optional[int]
    approves: bool

    def never(self) -> str:
        """Says why no request fits the row; nothing if one may."""
        if self.least > self.most:
            return f"least, {self.least}, is above most, {self.most}"
        for name, mask, value in zip(("tvr", "cvr"), self.masks, self.values):
            if value & ~mask:
                return f"{name}_value has bits that {name}_mask lacks"
        return ""

    def covers(self, other: Row) -> bool:
        """Whether each request that fits the other row fits this one."""
        bits = zip(self.masks, self.values, other.masks, other.values)
        return (
            all(mask & ~of_other == 0 and value == other_value & mask for mask, value, of_other, other_value in bits)
            and self.least <= other.least
            and other.most <= self.most
            and self.status in (None, other.status)
        )


def row_of(index: int, node: Node) -> Row:
    members = node.value
    status = members.get("status") if isinstance(members, Members) else None
    approve = members.get("approve") if isinstance(members, Members) else None
    return Row(
        index,
        node.offset,
        (int(rules_of.text_in(node, "tvr_mask"), 16), int(rules_of.text_in(node, "cvr_mask"), 16)),
        (int(rules_of.text_in(node, "tvr_value"), 16), int(rules_of.text_in(node, "cvr_value"), 16)),
        rules_of.number_in(node, "least"),
        rules_of.number_in(node, "most"),
        status.value if status and type(status.value) is int else None,
        approve is not None and approve.value is True,
    )


def of_table(rows: list[tuple[int, Node]], is_whole: bool) -> Iterator[Caution]:
    """Rows that never decide, and a whole table in which no row that may decide approves."""
    before: list[Row] = []
    for row in (row_of(index, node) for index, node in rows):
        at = f"{TABLE.name}[{row.index}]"
        never = row.never()
        covering = next((earlier for earlier in before if earlier.covers(row)), None)
        if never:
            yield Caution(row.offset, f"{at} fits no request: {never}")
        elif covering:
            says = f"{at} never decides: {TABLE.name}[{covering.index}] before it fits each request that fits it"
            yield Caution(row.offset, says)
        else:
            before.append(row)
    if is_whole and rows and not any(row.approves for row in before):
        yield Caution(rows[0][1].offset, f"no row of {TABLE.name} that may decide approves: every request is declined")


def offset_of(row: Node, name: str) -> int:
    node = row.value.get(name) if isinstance(row.value, Members) else None
    return node.offset if node else row.offset
