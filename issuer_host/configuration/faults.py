"""The faults of a configuration: all of them, in the order in which the host looks for the first one."""
from __future__ import annotations

from collections.abc import Callable, Hashable, Iterator
from dataclasses import dataclass
from typing import Optional

from issuer_host.configuration import members as rules_of
from issuer_host.configuration.json_text import LineStarts, Members, Node, NotJson, decoded, read_json
from issuer_host.configuration.members import CARD, CARDS, FITS_ALL, KEYS, Part, ROW, Rule, SHARDS, SHARD_RULE, TABLE
from issuer_host.facts.limits import MAX_CONFIGURATION_BYTES
from issuer_host.facts.masks import masked

WHOLE = 1


@dataclass(frozen=True)
class Fault:
    """A rule that a configuration breaks: what the host's `stop 2 PART INDEX` names, where it is, and the rule."""

    part: int
    index: int
    offset: int
    says: str


@dataclass(frozen=True)
class Elements:
    """A list's elements that break no rule of their own, each with its index from 0."""

    part: Part
    sound: list[tuple[int, Node]]


@dataclass(frozen=True)
class CheckedConfiguration:
    """What was read of a configuration: its root if it is JSON, the faults, and the elements without any."""

    root: Optional[Node]
    lines: LineStarts
    faults: list[Fault]
    lists: dict[str, Elements]


def check_configuration(data: bytes) -> CheckedConfiguration:
    """Finds the faults of a configuration's bytes. The first one is that which the host names."""
    text = data.decode(errors="replace")
    lines = LineStarts(text)
    if len(data) > MAX_CONFIGURATION_BYTES:
        says = f"the configuration has {len(data):,} bytes; at most {MAX_CONFIGURATION_BYTES:,} are read"
        return CheckedConfiguration(None, lines, [Fault(WHOLE, 0, 0, says)], {})
    try:
        root = read_json(decoded(data))
    except NotJson as fault:
        return CheckedConfiguration(None, lines, [Fault(WHOLE, 0, fault.offset, str(fault))], {})
    if not isinstance(root.value, Members):
        says = f"the configuration is {rules_of.kind_of(root.value)}, and has to be one object"
        return CheckedConfiguration(None, lines, [Fault(WHOLE, 0, root.offset, says)], {})
    checker = Checker(root, root.value, lines)
    faults = [*checker.in_shards(), *checker.in_keys(), *checker.in_cards(), *checker.in_table()]
    return CheckedConfiguration(root, lines, faults, checker.lists)


class Checker:
    """Walks over the members of a configuration, and remembers the elements that break no rule."""

    def __init__(self, root: Node, members: Members, lines: LineStarts) -> None:
        self.root = root
        self.members = members
        self.lines = lines
        self.lists: dict[str, Elements] = {}

    def in_shards(self) -> Iterator[Fault]:
        for offset, says in broken_rule(self.members, self.root.offset, "shards", "shards", SHARD_RULE):
            yield Fault(SHARDS, 0, offset, says)

    def in_keys(self) -> Iterator[Fault]:
        yield from self.in_list(KEYS, rules_of.rules_of_key_set, name_of_key_set)

    def in_cards(self) -> Iterator[Fault]:
        yield from self.in_list(CARDS, lambda members: CARD, name_of_card)

    def in_table(self) -> Iterator[Fault]:
        yield from self.in_list(TABLE, lambda members: ROW, None)
        found = self.members.get(TABLE.name)
        rows = found.value if found and isinstance(found.value, list) else []
        if rows and isinstance(rows[-1].value, Members):
            yield from in_last_row(rows[-1], rows[-1].value, len(rows))

    def in_list(
        self, part: Part, rules: Callable[[Members], dict[str, Rule]], name_of: Optional[Callable[[Node], Name]]
    ) -> Iterator[Fault]:
        """Finds the faults of a list and of its elements. No two elements that break no rule have one name."""
        node = self.members.get(part.name)
        if node is None:
            yield Fault(part.number, 0, self.root.offset, f"{part.name} is missing: a list of 1 to {part.most:,}")
            return
        elements = node.value if isinstance(node.value, list) else []
        if not 1 <= len(elements) <= part.most:
            kind = rules_of.kind_of(node.value)
            yield Fault(
                part.number, 0, node.offset, f"{part.name} is {kind}, and has to be a list of 1 to {part.most:,}"
            )
        sound: list[tuple[int, Node]] = []
        first_of: dict[Hashable, tuple[int, Node]] = {}
        for index, element in enumerate(elements):
            at = f"{part.name}[{index}]"
            broken = list(in_element(part, at, element, rules))
            if not broken:
                sound.append((index, element))
                name = name_of(element) if name_of else None
                if name and first_of.setdefault(name.key, (index, element))[0] != index:
                    broken = [self.repeated(part, at, element, name, *first_of[name.key])]
            yield from (Fault(part.number, index + 1, offset, says) for offset, says in broken)
        self.lists[part.name] = Elements(part, sound)

    def repeated(self, part: Part, at: str, element: Node, name: Name, first: int, node: Node) -> tuple[int, str]:
        line, column = self.lines.place(node.offset)
        where = f"{part.name}[{first}] (line {line}, column {column})"
        return element.offset, f"{at} repeats {name.words} of {where}: each has its own"


@dataclass(frozen=True)
class Name:
    """What no two elements of a list may share, and its words."""

    key: Hashable
    words: str


def name_of_key_set(node: Node) -> Name:
    dki = rules_of.number_in(node, "dki")
    return Name(dki, f"dki {dki}")


def name_of_card(node: Node) -> Name:
    pan, psn = (rules_of.text_in(node, name) for name in ("pan", "psn"))
    return Name((pan, psn), f"the PAN {masked(pan)} and the PSN {psn}")


def in_element(
    part: Part, at: str, element: Node, rules: Callable[[Members], dict[str, Rule]]
) -> Iterator[tuple[int, str]]:
    """Finds the rules that an element breaks."""
    members = element.value
    if not isinstance(members, Members):
        yield element.offset, f"{at} is {rules_of.kind_of(members)}, and has to be {part.element}: an object"
        return
    broken = False
    for name, rule in rules(members).items():
        for found in broken_rule(members, element.offset, f"{at}.{name}", name, rule):
            broken = True
            yield found
    if part is TABLE and not broken:
        yield from in_approval(at, element)
    if part is KEYS:
        yield from in_wrapped(at, members)


def broken_rule(members: Members, offset: int, path: str, name: str, rule: Rule) -> Iterator[tuple[int, str]]:
    """Says that a member is missing, or isn't what it has to be."""
    node = members.get(name)
    if node is None:
        yield offset, f"{path} is missing: it has to be {rule.words}"
    elif not rule.holds(node.value):
        yield node.offset, f"{path} is {rule.shows(node.value)}, and has to be {rule.words}"


def in_wrapped(at: str, members: Members) -> Iterator[tuple[int, str]]:
    """A wrapped key is named, is in no clear member beside, and has its text and its check value."""
    for name, node in rules_of.wrapped_names(members).items():
        path = f"{at}.{rules_of.WRAPPED}.{name}"
        if name not in rules_of.KEY_NAMES:
            known = ", ".join(rules_of.KEY_NAMES)
            yield node.offset, f"{at}.{rules_of.WRAPPED} has a member that is no key: keys are {known}"
        elif members.get(name):
            yield node.offset, f"{path} is there in clear too: remove the member {name} of the key set"
        elif not isinstance(node.value, Members):
            yield node.offset, f"{path} is {rules_of.kind_of(node.value)}, and has to be an object"
        else:
            for part, rule in rules_of.WRAPPED_RULES.items():
                yield from broken_rule(node.value, node.offset, f"{path}.{part}", part, rule)


def in_approval(at: str, row: Node) -> Iterator[tuple[int, str]]:
    """An approval sets byte 2 bit 8 of the card status update, and nothing else does."""
    members = row.value
    csu, approve = (members.get(name) if isinstance(members, Members) else None for name in ("csu", "approve"))
    if csu is None or approve is None:
        return
    digits = rules_of.text_in(row, "csu").upper()
    if bool(bytes.fromhex(digits)[1] & 0x80) != approve.value:
        bit, such = ("set", "00800000") if approve.value else ("clear", "00000000")
        why = f"since approve is {rules_of.shown(approve.value)}: for example {such}"
        yield csu.offset, f"{at}.csu is {digits}, and has to have byte 2 bit 8 {bit}, {why}"


def in_last_row(row: Node, members: Members, index: int) -> Iterator[Fault]:
    """The last row fits every request."""
    for name, value in FITS_ALL.items():
        node = members.get(name)
        if node is None or not ROW[name].holds(node.value):
            continue
        if node.value != value:
            at = f"{TABLE.name}[{index - 1}].{name}"
            says = f"{at} is {rules_of.shown(node.value)}, and the last row has to fit every request:"
            yield Fault(TABLE.number, index, node.offset, f"{says} {rules_of.shown(value)}")
