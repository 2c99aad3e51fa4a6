"""The rules of a dialect's file: each fault with the path of its member, and the rule in words.

`CHOICES` has the members with few values. `deploy/dialects/schema.json` says the same for editors, as far as a schema
can; `tests/gateway/dialects` holds one against the other.
"""

from __future__ import annotations

import difflib
import json
import re
from typing import Any, Collection, Iterable, Iterator, List, Mapping, NamedTuple, Optional, Tuple

from issuer_host.gateway import mapping
from issuer_host.gateway.advice_rules import AdviceRules, rules_of
from issuer_host.gateway.dialect import BCD, BEFORE_ZEROS, BINARY, BITMAP_ELEMENTS, LAST_ELEMENT
from issuer_host.gateway.mapping import APPROVAL, CHIP, CODE, EDITIONS

# An element's format: its kind; LL to LLLLLL where its length varies; the length, or the greatest. `n LL 19`, `b 8`.
FORMAT = re.compile(r"(n|a|an|as|ans|b|z|x) (?:(L{2,6}) )?([1-9][0-9]{0,5})")
NUMBER = re.compile(r"[1-9][0-9]{0,2}")
HEXADECIMAL = re.compile(r"(?:[0-9A-Fa-f]{2})+")
MOST_SECONDS, MOST_HEADER_BYTES = 86_400, 256
# A reply for the card has up to 160 bytes.
REPLY_BYTES = 160

Path = Tuple[str, ...]


class BrokenRule(NamedTuple):
    """A rule that a member breaks."""

    path: Path
    says: str
    # Whether it names its member by itself.
    is_whole: bool = False

    @property
    def text(self) -> str:
        return self.says if self.is_whole or not self.path else f"`{'.'.join(self.path)}` {self.says}"


class Choice(NamedTuple):
    """A member that has one of a few values. If it has a default, it may be missing."""

    member: str
    values: Tuple[str, ...]
    default: Optional[str] = None
    # Whether an element may say it for itself.
    is_of_elements: bool = False


CHOICES = (
    Choice("numbers", ("ascii", "bcd", "characters"), None, True),
    Choice("odd", ("zero before", "F after", "zero after", "F before"), None, True),
    Choice("lengths", ("ascii", "bcd", "binary", "characters"), None, True),
    Choice("binary", ("hexadecimal", "raw"), None, True),
    Choice("lengths of binary", ("bytes", "characters"), None, True),
    Choice("bitmaps", ("hexadecimal", "raw")),
    Choice("conversion", ("none", "by the link"), "none"),
)
OF_ELEMENTS = tuple(it for it in CHOICES if it.is_of_elements)
# Members that may be missing, beside choices with a default.
DEFAULTS: Mapping[str, Any] = {
    "$schema": "",
    "declines": {},
    "advices": {},
    "codes": {},
    "headers": [],
    "characters": "latin-1",
}
OPTIONAL = {it.member for it in CHOICES if it.default is not None} | set(DEFAULTS)
NEEDED = {"name", "edition", "frame length", "echo", "network", "elements", *(it.member for it in CHOICES)} - OPTIONAL
# The members of an element that is more than a format.
FORMAT_MEMBER, FILL, FILL_SIDE, CHARACTERS = "format", "fill", "fill side", "characters"
ELEMENT_MEMBERS = {FORMAT_MEMBER, FILL, FILL_SIDE, CHARACTERS, *(it.member for it in OF_ELEMENTS)}
FILL_SIDES = ("after", "before")
COUNTS = {"of the message": False, "of the message and itself": True}
FRAME_FORMS = {BINARY: (2, 4), "ascii": (4,), BCD: (2,), BEFORE_ZEROS: (4,)}
FRAME_MEMBERS = {"bytes", "form", "counts"}
# The members of a header beside `kind` and `own`, by its kind.
HEADER_KINDS: Mapping[str, Tuple[str, ...]] = {"TPDU": (), "echoed": ("bytes",), "answered": ("answer",)}
NETWORK_CODES = ("sign-on", "sign-off", "echo", "signed off")
NETWORK_SECONDS = {"echo seconds": 60, "answer seconds": 10}
NETWORK_NEEDED, NETWORK_OPTIONAL = {"element", "accepted"}, {*NETWORK_CODES, *NETWORK_SECONDS, "own"}
DIGITS, CODES, TEXTS = ("n",), ("n", "a", "an", "ans"), ("n", "a", "an", "as", "ans", "z")


class Need(NamedTuple):
    """What an element has to be, since the gateway reads or writes it: its kinds, and a size that it has to hold."""

    number: int
    kinds: Tuple[str, ...]
    size: int
    # Whether a dialect may lack the element, and another size that will do too.
    may_lack: bool = False
    other_size: int = 0


def needs_of(edition: str, is_converted: bool) -> Tuple[Need, ...]:
    """What the elements have to be by which a request line and a response are made."""
    amounts = mapping.AMOUNTS if is_converted else mapping.AMOUNTS[:1]
    long_amount = mapping.LONG_AMOUNT_DIGITS if edition == "2003" else 0
    return (
        Need(mapping.PAN, DIGITS, 19),
        Need(APPROVAL, ("an", "ans"), 6),
        Need(CODE, ("n", "an", "ans"), mapping.CODE_LENGTH[edition]),
        Need(CHIP, ("b",), REPLY_BYTES),
        *(Need(it, DIGITS, mapping.AMOUNT_DIGITS, it != mapping.AMOUNT, long_amount) for it, _ in amounts),
        *(Need(currency, CODES, 3, True) for _, currency in amounts if not long_amount),
        Need(mapping.PROCESSING, DIGITS, 6, True),
        Need(mapping.PSN, DIGITS, 3, True),
        Need(mapping.DATE[edition], DIGITS, mapping.DATE_LENGTH[edition], True),
    )


class ParsedFormat(NamedTuple):
    """A format's text, as `n LL 19`."""

    kind: str
    length_digits: int
    size: int


def parsed(text: object) -> Optional[ParsedFormat]:
    found = FORMAT.fullmatch(text) if isinstance(text, str) else None
    return ParsedFormat(found[1], len(found[2] or ""), int(found[3])) if found else None


def own_members(element: Any) -> Mapping[str, Any]:
    """The members of an element, of which a text is the format alone."""
    return element if isinstance(element, dict) else {FORMAT_MEMBER: element}


def length_width(digits: int, form: str) -> int:
    """The bytes of a length of so many digits."""
    return (digits + 1) // 2 if form in (BINARY, BCD) else digits


def greatest_length(digits: int, form: str) -> int:
    """What a length of so many digits counts to."""
    return (1 << 8 * length_width(digits, form)) - 1 if form == BINARY else int("9" * digits)


def shown(value: object) -> str:
    text = json.dumps(value)
    return text if len(text) <= 60 else f"{text[:57]}..."


def one_of(values: Iterable[str]) -> str:
    texts = [f'"{it}"' for it in values]
    return texts[0] if len(texts) == 1 else f"{', '.join(texts[:-1])} or {texts[-1]}"


def codec_fault(name: object) -> str:
    """Why a codec has no character of one byte for each that a message needs; nothing if it has."""
    if not isinstance(name, str):
        return f'is {shown(name)}, and has to be the name of a codec of Python, as "latin-1" or "cp500"'
    plain = "".join(map(chr, range(0x20, 0x7F)))
    try:
        written = plain.encode(name)
        is_single = len(written) == len(plain) and written.decode(name) == plain
    except (LookupError, UnicodeError):
        is_single = False
    if is_single and len(set(written)) == len(plain):
        return ""
    return f'is {shown(name)}, and has to be a codec of Python with a byte a character, as "latin-1" or "cp500"'


# The rules


def faults_of(found: Any) -> Iterator[BrokenRule]:
    """The faults of a dialect's members, in their order. If there are none, it is one."""
    if not isinstance(found, dict):
        yield BrokenRule((), "a dialect is a JSON object")
        return
    yield from names_in((), found, NEEDED, OPTIONAL)
    if "name" in found and (not isinstance(found["name"], str) or not found["name"]):
        yield BrokenRule(("name",), f"is {shown(found['name'])}, and has to be a text for the log")
    if "edition" in found and found["edition"] not in EDITIONS:
        yield BrokenRule(("edition",), f"is {shown(found['edition'])}, and has to be one of {one_of(EDITIONS)}")
    yield from choices_in((), found, CHOICES)
    yield from in_characters((), found)
    yield from in_frame_length(found)
    yield from in_headers(found)
    formats = {}
    for number, element, faults in elements_in(found):
        yield from faults
        if element is not None:
            formats[number] = element
    if found.get("edition") in EDITIONS and isinstance(found.get("elements"), dict):
        is_converted = found.get("conversion") == "by the link"
        yield from in_needed(formats, found["elements"], needs_of(found["edition"], is_converted))
        if is_converted and not any(set(pair) <= set(formats) for pair in mapping.AMOUNTS[1:]):
            yield BrokenRule(
                ("conversion",), "is by the link: then elements 5 and 50, or 6 and 51, have the card's amount"
            )
    yield from in_echo(found)
    yield from in_network(found, formats)
    yield from in_codes(found, formats)
    if found.get("edition") in EDITIONS and CODE in formats:
        try:
            advices_of(found.get("advices", {}), found["edition"], formats)
        except ValueError as wrong:
            yield BrokenRule(("advices",), str(wrong), True)


def advices_of(advices: Any, edition: str, elements: Collection[int]) -> AdviceRules:
    """The rules of the member `advices`. A ValueError says what is wrong."""
    return rules_of(advices, str(EDITIONS.index(edition)), mapping.CODE_LENGTH[edition], elements)


def names_in(path: Path, found: Mapping[str, Any], needed: "set[str]", optional: "set[str]") -> Iterator[BrokenRule]:
    """Members that are missing or unknown."""
    for name in found:
        if name not in needed and name not in optional:
            near = difflib.get_close_matches(name, sorted(needed | optional), 1)
            hint = f"; did you mean `{near[0]}`?" if near else f": {', '.join(sorted(needed | optional))} are known"
            yield BrokenRule((*path, name), f"is unknown{hint}")
    for name in sorted(needed - set(found)):
        yield BrokenRule((*path, name), "is missing")


def choices_in(path: Path, found: Mapping[str, Any], choices: Tuple[Choice, ...]) -> Iterator[BrokenRule]:
    for choice in choices:
        if choice.member in found:
            value = found[choice.member]
            if not isinstance(value, str) or value not in choice.values:
                says = f"is {shown(value)}, and has to be {one_of(choice.values)}"
                yield BrokenRule((*path, choice.member), says)


def in_characters(path: Path, found: Mapping[str, Any]) -> Iterator[BrokenRule]:
    says = codec_fault(found[CHARACTERS]) if CHARACTERS in found else ""
    if says:
        yield BrokenRule((*path, CHARACTERS), says)


def in_frame_length(found: Mapping[str, Any]) -> Iterator[BrokenRule]:
    path: Path = ("frame length",)
    value = found.get(path[0], "of the message")
    if isinstance(value, str) and value in COUNTS:
        return
    if not isinstance(value, dict):
        says = f"is {shown(value)}, and has to be {one_of(COUNTS)}, or an object with `bytes`, `form` and `counts`"
        yield BrokenRule(path, says)
        return
    yield from names_in(path, value, FRAME_MEMBERS, set())
    counts, form, width = value.get("counts"), value.get("form"), value.get("bytes")
    if "counts" in value and (not isinstance(counts, str) or counts not in COUNTS):
        yield BrokenRule((*path, "counts"), f"is {shown(counts)}, and has to be {one_of(COUNTS)}")
    if "form" not in value or "bytes" not in value:
        return
    if not isinstance(form, str) or form not in FRAME_FORMS:
        yield BrokenRule((*path, "form"), f"is {shown(form)}, and has to be {one_of(FRAME_FORMS)}")
    elif type(width) is not int or width not in FRAME_FORMS[form]:
        widths = " or ".join(map(str, FRAME_FORMS[form]))
        why = ": two digits count to 99, and a message has more bytes" if (form, width) == ("ascii", 2) else ""
        yield BrokenRule(
            (*path, "bytes"), f"is {shown(width)}, and has to be {widths} where `form` is {shown(form)}{why}"
        )


def in_headers(found: Mapping[str, Any]) -> Iterator[BrokenRule]:
    headers = found.get("headers", [])
    if not isinstance(headers, list):
        yield BrokenRule(("headers",), f"is {shown(headers)}, and has to be a list: of a header each, in their order")
        return
    for number, header in enumerate(headers):
        yield from in_header(("headers", str(number)), header)


def in_header(path: Path, header: Any) -> Iterator[BrokenRule]:
    kind = header.get("kind") if isinstance(header, dict) else None
    if not isinstance(kind, str) or kind not in HEADER_KINDS:
        yield BrokenRule(path, f"is {shown(header)}, and has to be an object whose `kind` is {one_of(HEADER_KINDS)}")
        return
    needed = HEADER_KINDS[kind]
    yield from names_in(path, header, {"kind", *needed}, {"own"})
    size = 5 if kind == "TPDU" else header.get("bytes")
    if "bytes" in needed and "bytes" in header and (type(size) is not int or not 1 <= size <= MOST_HEADER_BYTES):
        yield BrokenRule((*path, "bytes"), f"is {shown(size)}, and has to be a number from 1 to {MOST_HEADER_BYTES}")
        return
    for name in ("answer", "own"):
        value = header.get(name)
        if name in header and not (isinstance(value, str) and HEXADECIMAL.fullmatch(value)):
            yield BrokenRule((*path, name), f"is {shown(value)}, and has to be bytes in hexadecimal digits")
        elif name in header and name != "answer":
            expected = size if kind != "answered" else len(str(header.get("answer", value))) // 2
            if isinstance(expected, int) and len(str(value)) != 2 * expected:
                yield BrokenRule((*path, name), f"has {len(str(value)) // 2} bytes, and the header has {expected}")


def elements_in(found: Mapping[str, Any]) -> "Iterator[Tuple[int, Optional[ParsedFormat], List[BrokenRule]]]":
    """Each element's number, its format if it has no fault, and its faults."""
    elements = found.get("elements", {})
    if not isinstance(elements, dict):
        yield 0, None, [BrokenRule(("elements",), f"is {shown(elements)}, and has to be an object: a format by number")]
        return
    for name, element in elements.items():
        path: Path = ("elements", name)
        is_number = NUMBER.fullmatch(name) and int(name) <= LAST_ELEMENT and int(name) not in BITMAP_ELEMENTS
        if not is_number:
            yield 0, None, [BrokenRule(path, "is no element's number: 2 to 64 and 66 to 128 are")]
            continue
        faults = list(in_element(path, found, element))
        yield int(name), None if faults else parsed(own_members(element)[FORMAT_MEMBER]), faults


def in_element(path: Path, found: Mapping[str, Any], element: Any) -> Iterator[BrokenRule]:
    members = own_members(element)
    form = parsed(members.get(FORMAT_MEMBER))
    if isinstance(element, dict):
        yield from names_in(path, element, {FORMAT_MEMBER}, ELEMENT_MEMBERS)
        yield from choices_in(path, element, OF_ELEMENTS)
        yield from in_characters(path, element)
    if form is None:
        if FORMAT_MEMBER in members:
            where = (*path, FORMAT_MEMBER) if isinstance(element, dict) else path
            value = shown(members[FORMAT_MEMBER])
            yield BrokenRule(where, f'has the format {value}, and has to be as "n 6", "ans LL 28" or "b LLL 255"')
        return
    lengths = members.get("lengths", found.get("lengths"))
    if form.length_digits and lengths in CHOICES[2].values:
        most = greatest_length(form.length_digits, lengths)
        says_characters = members.get("lengths of binary", found.get("lengths of binary")) == "characters"
        if form.kind == "b" and says_characters and members.get("binary", found.get("binary")) == "hexadecimal":
            most //= 2
        if form.size > most:
            name = "L" * form.length_digits
            yield BrokenRule(path, f"has {name} in {lengths}, which counts to {most}, and up to {form.size} places")
    yield from in_fill(path, found, members, form)


def in_fill(
    path: Path, found: Mapping[str, Any], members: Mapping[str, Any], form: ParsedFormat
) -> Iterator[BrokenRule]:
    if FILL not in members and FILL_SIDE not in members:
        return
    fill, side = members.get(FILL), members.get(FILL_SIDE, FILL_SIDES[0])
    if not isinstance(side, str) or side not in FILL_SIDES:
        yield BrokenRule((*path, FILL_SIDE), f"is {shown(side)}, and has to be {one_of(FILL_SIDES)}")
    if not isinstance(fill, str) or not HEXADECIMAL.fullmatch(fill) or len(fill) != 2:
        yield BrokenRule((*path, FILL), f'is {shown(fill)}, and has to be one byte in hexadecimal digits, as "00"')
    is_packed = form.kind == "n" and members.get("numbers", found.get("numbers")) == "bcd"
    if form.length_digits or form.kind in ("b", "z", "x") or is_packed:
        yield BrokenRule((*path, FILL), "is for elements of fixed length whose places are characters")


def in_needed(
    formats: Mapping[int, ParsedFormat], elements: Mapping[str, Any], needs: Tuple[Need, ...]
) -> Iterator[BrokenRule]:
    """A dialect in which a response couldn't be written, or the table's elements couldn't be read."""
    for need in needs:
        form = formats.get(need.number)
        if form is None and (need.may_lack or str(need.number) in elements):
            continue
        sizes = [it for it in (need.other_size, need.size) if it]
        has_room = form is not None and any(holds(form, it) for it in sizes)
        if form is None or form.kind not in need.kinds or not has_room:
            kinds, size = " or ".join(need.kinds), " or ".join(map(str, sizes))
            says = f"has to be of kind {kinds}, with the length {size}, or with LL to LLLLLL and {need.size} or more"
            yield BrokenRule(("elements", str(need.number)), says)


def holds(form: ParsedFormat, size: int) -> bool:
    return form.size >= size if form.length_digits else form.size == size


def in_echo(found: Mapping[str, Any]) -> Iterator[BrokenRule]:
    echo = found.get("echo", [])
    if not isinstance(echo, list) or not all(type(it) is int for it in echo):
        yield BrokenRule(("echo",), f"is {shown(echo)}, and has to be a list of numbers of elements")
        return
    elements = found.get("elements")
    for number in echo:
        if isinstance(elements, dict) and str(number) not in elements:
            yield BrokenRule(("echo",), f"has the element {number}, and `elements` lacks it")


def in_network(found: Mapping[str, Any], formats: Mapping[int, ParsedFormat]) -> Iterator[BrokenRule]:
    network, path = found.get("network"), ("network",)
    if "network" not in found:
        return
    if not isinstance(network, dict):
        yield BrokenRule(path, f"is {shown(network)}, and has to be an object with `element` and `accepted`")
        return
    yield from names_in(path, network, NETWORK_NEEDED, NETWORK_OPTIONAL)
    number, accepted = network.get("element"), network.get("accepted", [])
    if "element" in network and (type(number) is not int or number not in formats):
        says = f"is {shown(number)}, and has to be the number of an element of `elements`"
        yield BrokenRule((*path, "element"), says)
    if not isinstance(accepted, list) or not all(isinstance(it, str) for it in accepted):
        yield BrokenRule(
            (*path, "accepted"), f"is {shown(accepted)}, and has to be a list of texts: the element's values"
        )
    for name in NETWORK_CODES:
        form = formats.get(mapping.CODE if name == "signed off" else number) if type(number) is int else None
        if name in network and form is not None:
            yield from in_text((*path, name), network[name], form)
    for name in NETWORK_SECONDS:
        seconds = network.get(name, 1)
        if type(seconds) is not int or not 0 <= seconds <= MOST_SECONDS or name == "answer seconds" and not seconds:
            least = int(name == "answer seconds")
            yield BrokenRule(
                (*path, name), f"is {shown(seconds)}, and has to be a number from {least} to {MOST_SECONDS}"
            )
    yield from in_own((*path, "own"), network.get("own", {}), formats)


def in_own(path: Path, own: Any, formats: Mapping[int, ParsedFormat]) -> Iterator[BrokenRule]:
    if not isinstance(own, dict):
        yield BrokenRule(path, f"is {shown(own)}, and has to be an object: a text by an element's number")
        return
    for name, value in own.items():
        form = formats.get(int(name)) if NUMBER.fullmatch(name) else None
        if form is None:
            yield BrokenRule((*path, name), "is no element of `elements`")
        elif form.kind == "b":
            yield BrokenRule((*path, name), "is of kind b, and has to be a text")
        else:
            yield from in_text((*path, name), value, form)


def in_text(path: Path, value: Any, form: ParsedFormat) -> Iterator[BrokenRule]:
    """A value that its element can't have."""
    if not isinstance(value, str) or not value:
        yield BrokenRule(path, f"is {shown(value)}, and has to be a text")
    elif not (len(value) <= form.size if form.length_digits else len(value) == form.size):
        yield BrokenRule(
            path, f"is {shown(value)}, and has to have {form.size} places{' at most' * bool(form.length_digits)}"
        )
    elif form.kind == "n" and not (value.isascii() and value.isdigit()):
        yield BrokenRule(path, f"is {shown(value)}, and has to be digits")


def in_codes(found: Mapping[str, Any], formats: Mapping[int, ParsedFormat]) -> Iterator[BrokenRule]:
    """Codes of element 39, of requests and of responses."""
    form = formats.get(CODE)
    declines, codes = found.get("declines", {}), found.get("codes", {})
    if form is None:
        return
    is_object = isinstance(declines, dict) and all(type(it) is int and 0 <= it <= 9 for it in declines.values())
    if not is_object or not all(len(it) == form.size and it.isalnum() for it in declines):
        says = f"has to be an object: by codes of {form.size} places a card's status each, 0 to 9"
        yield BrokenRule(("declines",), f"is {shown(declines)}, and {says}")
    if not isinstance(codes, dict):
        yield BrokenRule(("codes",), f"is {shown(codes)}, and has to be an object: the link's codes by the page's")
        return
    for name, value in codes.items():
        yield from in_text(("codes", name), value, form)
