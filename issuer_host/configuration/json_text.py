"""A JSON text as values, each with its place in the text (RFC 8259).

What is no JSON here is none for the host: numbers of unlimited size, lone surrogates, more than 127 levels. A message
never repeats what stands in the text, since that may be a key.
"""
from __future__ import annotations

import re
from bisect import bisect_right
from dataclasses import dataclass
from json import JSONDecodeError, JSONDecoder
from typing import Optional, Union

MOST_LEVELS = 127
MOST_WHOLE = (1 << 64) - 1
BYTE_ORDER_MARK = "\ufeff"
BLANK = re.compile(r"[ \t\n\r]*")
NUMBER = re.compile(r"-?(?:0|[1-9][0-9]*)(?:\.[0-9]+)?(?:[eE][+-]?[0-9]+)?")
WORDS: dict[str, Optional[bool]] = {"true": True, "false": False, "null": None}
# (strict: a string has no control characters)
STRINGS = JSONDecoder(strict=True)
INFINITIES = (float("inf"), float("-inf"))


@dataclass(frozen=True)
class OtherNumber:
    """A number that is no unsigned whole one of 64 bits, as the text has it."""

    text: str


class NotJson(Exception):
    """A text that is no JSON: what is wrong, and the offset of the character where it is."""

    def __init__(self, why: str, offset: int) -> None:
        super().__init__(why)
        self.offset = offset


@dataclass(frozen=True)
class Node:
    """A value, and the offset of its first character."""

    value: Value
    offset: int


@dataclass(frozen=True)
class Member:
    """A member of an object: its name, the offset of that, and its value."""

    name: str
    offset: int
    node: Node


class Members:
    """An object's members, in the order of the text. Of two with one name the last counts."""

    def __init__(self, items: list[Member]) -> None:
        self.items = items
        self.by_name = {member.name: member for member in items}

    def get(self, name: str) -> Optional[Node]:
        member = self.by_name.get(name)
        return member.node if member else None


Value = Union[None, bool, int, OtherNumber, str, "list[Node]", Members]


class LineStarts:
    """Where the lines of a text begin."""

    def __init__(self, text: str) -> None:
        self.begins = [0, *(found.end() for found in re.finditer("\n", text))]

    def place(self, offset: int) -> tuple[int, int]:
        """Returns the line and the column of an offset, both from 1."""
        line = bisect_right(self.begins, offset)
        return line, offset - self.begins[line - 1] + 1


def decoded(data: bytes) -> str:
    """Returns the text of some bytes. Raises NotJson if they are no UTF-8, or begin with a byte order mark."""
    try:
        text = data.decode()
    except UnicodeDecodeError as fault:
        offset = len(data[: fault.start].decode())
        raise NotJson("the text is not UTF-8: save the file as UTF-8", offset) from None
    if text.startswith(BYTE_ORDER_MARK):
        raise NotJson("the file begins with a byte order mark (EF BB BF): save it as UTF-8 without one", 0)
    return text


def read_json(text: str) -> Node:
    """Returns the value of a text. Raises NotJson if the text isn't just one value."""
    return Reader(text).whole()


class Reader:
    """A cursor over a text."""

    def __init__(self, text: str) -> None:
        self.text = text
        self.at = 0

    def whole(self) -> Node:
        node = self.value(0)
        self.pass_blanks()
        if self.at < len(self.text):
            raise NotJson("the JSON value has ended before this: remove what follows, or the bracket too many", self.at)
        return node

    def value(self, level: int) -> Node:
        """Reads a value inside so many lists and objects."""
        self.pass_blanks()
        begin = self.at
        first = self.text[begin : begin + 1]
        if first in ("{", "["):
            if level == MOST_LEVELS:
                raise NotJson(f"lists and objects are nested in more than {MOST_LEVELS} levels here", begin)
            return Node(self.members(level + 1) if first == "{" else self.elements(level + 1), begin)
        if first == '"':
            return Node(self.string(), begin)
        for word, value in WORDS.items():
            if self.text.startswith(word, begin):
                self.at += len(word)
                return Node(value, begin)
        return Node(self.number(), begin)

    def members(self, level: int) -> Members:
        found: list[Member] = []
        self.at += 1
        while not self.ends("}", bool(found)):
            begin = self.at
            if self.text[begin : begin + 1] != '"':
                raise NotJson("a member's name in double quotes is missing here", begin)
            name = self.string()
            self.pass_blanks()
            if self.text[self.at : self.at + 1] != ":":
                raise NotJson("a colon is missing here, between a member's name and its value", self.at)
            self.at += 1
            found.append(Member(name, begin, self.value(level)))
        return Members(found)

    def elements(self, level: int) -> list[Node]:
        found: list[Node] = []
        self.at += 1
        while not self.ends("]", bool(found)):
            found.append(self.value(level))
        return found

    def ends(self, bracket: str, has_some: bool) -> bool:
        """Goes past the bracket that ends a list or an object, or to its next element."""
        self.pass_blanks()
        next_one = self.text[self.at : self.at + 1]
        if next_one == bracket:
            self.at += 1
            return True
        if not has_some:
            return False
        if next_one != ",":
            raise NotJson(f"a comma or {bracket} is missing here", self.at)
        comma = self.at
        self.at += 1
        self.pass_blanks()
        if self.text[self.at : self.at + 1] == bracket:
            raise NotJson(f"a comma before {bracket}: remove the comma", comma)
        return False

    def string(self) -> str:
        begin = self.at
        try:
            decoded_string, self.at = STRINGS.raw_decode(self.text, begin)
        except JSONDecodeError as fault:
            raise NotJson(f"a string is wrong here: {reason_of(fault)}", fault.pos) from None
        text = str(decoded_string)
        if any("\ud800" <= character <= "\udfff" for character in text):
            raise NotJson("a string has half a character: the escape of a lone surrogate", begin)
        return text

    def number(self) -> Union[int, OtherNumber]:
        found = NUMBER.match(self.text, self.at)
        if not found:
            raise NotJson("a value is missing here: a string needs double quotes", self.at)
        text = found[0]
        if text.isdigit() and len(text) <= len(str(MOST_WHOLE)) and int(text) <= MOST_WHOLE:
            self.at = found.end()
            return int(text)
        if float(text) in INFINITIES:
            raise NotJson("a number is too great to hold", self.at)
        self.at = found.end()
        return OtherNumber(text)

    def pass_blanks(self) -> None:
        found = BLANK.match(self.text, self.at)
        self.at = found.end() if found else self.at


def reason_of(fault: JSONDecodeError) -> str:
    """Says what is wrong with a string, without the string."""
    if fault.msg.startswith("Unterminated"):
        return "its closing double quote is missing"
    if fault.msg.startswith("Invalid control"):
        return "it has a control character, such as a tab or the end of a line"
    return "it has a backslash that begins no escape"
