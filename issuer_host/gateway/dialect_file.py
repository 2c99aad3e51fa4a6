"""A dialect read from its file, or all that is wrong with it, each with its line and column."""

from __future__ import annotations

import os
from typing import Any, Dict, List, Mapping, Tuple, Union

from issuer_host.configuration.json_text import LineStarts, Members, Node, NotJson, OtherNumber, decoded, read_json
from issuer_host.gateway import dialect_rules as rules, mapping
from issuer_host.gateway.dialect import BINARY, Dialect, Fill, Format, FrameLength, LinkHeader, Length, Network, Odd
from issuer_host.gateway.dialect_rules import BrokenRule, FORMAT_MEMBER, own_members, parsed

MOST_BYTES = 1 << 20
# So many faults are told.
MOST_FAULTS = 20
ENDING = ".json"
SCHEMA = "schema.json"


class BadDialect(Exception):
    """A file that is no dialect, and why."""


def read_dialect(path: str) -> Dialect:
    """The dialect of a file, or BadDialect with what is wrong with it."""
    try:
        with open(path, "rb") as file:
            data = file.read(MOST_BYTES + 1)
    except OSError as fault:
        raise BadDialect(f"the dialect {path} can't be read: {fault.strerror}") from fault
    if len(data) > MOST_BYTES:
        raise BadDialect(f"the dialect {path} has more than {MOST_BYTES:,} bytes")
    lines = LineStarts(data.decode(errors="replace"))
    try:
        root = read_json(decoded(data))
    except NotJson as fault:
        line, column = lines.place(fault.offset)
        raise BadDialect(f"the dialect {path}:{line}:{column}: {fault}") from fault
    faults = [*repeated((), root), *rules.faults_of(plain(root))]
    if faults:
        raise BadDialect("\n".join(f"the dialect {path}:{place_of(root, lines, it)}: {it.text}" for it in told(faults)))
    return built(plain(root))


def dialect_of(found: Any) -> Dialect:
    """The dialect of a file's members, or BadDialect with what is wrong with them."""
    faults = list(rules.faults_of(found))
    if faults:
        raise BadDialect("\n".join(it.text for it in told(faults)))
    return built(found)


def named(name: str, folder: str) -> str:
    """The path of a dialect: itself, or that of a shipped one of this name."""
    return name if os.sep in name or name.endswith(ENDING) else os.path.join(folder, f"{name}{ENDING}")


def shipped_in(folder: str) -> List[str]:
    """The names of the shipped dialects."""
    names = (it for it in os.listdir(folder) if it.endswith(ENDING) and it != SCHEMA)
    return sorted(it[: -len(ENDING)] for it in names)


def told(faults: List[BrokenRule]) -> List[BrokenRule]:
    more = len(faults) - MOST_FAULTS
    return faults if more <= 0 else [*faults[:MOST_FAULTS], BrokenRule((), f"and {more} more")]


# A text and its places


def plain(node: Node) -> Any:
    """A value as `json` has it. A number that isn't whole is a text of no member's form."""
    value = node.value
    if isinstance(value, Members):
        return {it.name: plain(it.node) for it in value.items}
    if isinstance(value, list):
        return [plain(it) for it in value]
    return float(value.text) if isinstance(value, OtherNumber) else value


def repeated(path: Tuple[str, ...], node: Node) -> List[BrokenRule]:
    """Members that an object has twice: the first ones would be lost in silence."""
    value, found = node.value, []
    if isinstance(value, Members):
        seen = set()
        for it in value.items:
            if it.name in seen:
                found.append(BrokenRule((*path, it.name), "is there twice"))
            seen.add(it.name)
            found += repeated((*path, it.name), it.node)
    return found


def place_of(root: Node, lines: LineStarts, fault: BrokenRule) -> str:
    """The line and the column of a fault's member, or of what should have it."""
    node = root
    for name in fault.path:
        value = node.value
        found: Union[Node, None] = None
        if isinstance(value, Members):
            found = value.get(name)
        elif isinstance(value, list) and name.isdecimal() and int(name) < len(value):
            found = value[int(name)]
        if found is None:
            break
        node = found
    line, column = lines.place(node.offset)
    return f"{line}:{column}"


# What members without a fault mean


def built(found: Mapping[str, Any]) -> Dialect:
    said = {**rules.DEFAULTS, **{it.member: it.default for it in rules.CHOICES if it.default is not None}, **found}
    formats = {int(number): format_of(said, element) for number, element in said["elements"].items()}
    has_long_amounts = formats[mapping.AMOUNT].size == mapping.LONG_AMOUNT_DIGITS
    return Dialect(
        name=said["name"],
        edition=said["edition"],
        kind=format_of(said, "n 4"),
        bitmaps=None if said["bitmaps"] == "raw" else said["characters"],
        frame=frame_length_of(said["frame length"]),
        headers=tuple(header_of(it) for it in said["headers"]),
        network=network_of(said["network"]),
        is_converted=said["conversion"] == "by the link",
        echo=tuple(sorted(set(said["echo"]))),
        declines=dict(said["declines"]),
        advices=rules.advices_of(said["advices"], said["edition"], formats),
        formats=formats,
        codes=dict(said["codes"]),
        rows=mapping.rows_of(said["edition"], has_long_amounts),
    )


def format_of(said: Mapping[str, Any], element: Any) -> Format:
    """An element's format: what it says itself, and else what the dialect says."""
    own: Dict[str, Any] = {**said, **own_members(element)}
    form, characters = parsed(own[FORMAT_MEMBER]), own["characters"]
    assert form is not None
    codecs = {"ascii": "ascii", "characters": characters}
    digit, _, side = own["odd"].partition(" ")
    fill = Fill(bytes.fromhex(own["fill"]), own.get("fill side") == "before") if "fill" in own else None
    is_raw = own["binary"] == "raw"
    length = None
    if form.length_digits:
        width = rules.length_width(form.length_digits, own["lengths"])
        counts_characters = form.kind == "b" and not is_raw and own["lengths of binary"] == "characters"
        length = Length(width, codecs.get(own["lengths"], own["lengths"]), counts_characters)
    return Format(
        form.kind,
        form.size,
        length,
        codecs.get(own["numbers"]),
        Odd("0" if digit == "zero" else "F", side == "before"),
        None if is_raw else characters,
        characters,
        fill,
    )


def frame_length_of(value: Any) -> FrameLength:
    if isinstance(value, str):
        return FrameLength(2, BINARY, rules.COUNTS[value])
    return FrameLength(value["bytes"], value["form"], rules.COUNTS[value["counts"]])


def header_of(header: Mapping[str, Any]) -> LinkHeader:
    if header["kind"] == "TPDU":
        return LinkHeader(5, bytes.fromhex(header.get("own", "6000000000")), None, (1, 3, 2), 6)
    if header["kind"] == "answered":
        answer = bytes.fromhex(header["answer"])
        return LinkHeader(len(answer), bytes.fromhex(header.get("own", header["answer"])), answer)
    size = header["bytes"]
    return LinkHeader(size, bytes.fromhex(header.get("own", "00" * size)))


def network_of(network: Mapping[str, Any]) -> Network:
    return Network(
        network["element"],
        tuple(network["accepted"]),
        network.get("sign-on", ""),
        network.get("sign-off", ""),
        network.get("echo", ""),
        network.get("echo seconds", rules.NETWORK_SECONDS["echo seconds"]),
        network.get("answer seconds", rules.NETWORK_SECONDS["answer seconds"]),
        network.get("signed off", ""),
        {int(number): text for number, text in network.get("own", {}).items()},
    )
