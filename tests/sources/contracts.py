"""The contracts of a crate's functions: how many clauses each has, and how many characters."""
import re
from collections.abc import Iterator
from typing import NamedTuple

FUNCTION = re.compile(r"(?m)^[ \t]*(?:pub(?:\([a-z]+\))? )?(?:const )?(?:unsafe )?fn (\w+)")
COMMENT = re.compile(r"//[^\n]*")
CLAUSE = re.compile(r"\b(?:requires|ensures)\b[^{]*")
OPENED, CLOSED = "{", "}"


class Contract(NamedTuple):
    """What a function requires and ensures: its name, the line that it begins in, and its clauses, each on one line."""

    function: str
    line: int
    clauses: tuple[str, ...]

    def length(self) -> int:
        """How many characters the clauses have, with one space between two."""
        return len(" ".join(self.clauses))


def contracts_in(source: str) -> Iterator[Contract]:
    """The contracts of all functions of a source that have one."""
    text = COMMENT.sub(lambda found: " " * len(found[0]), source)
    for found in FUNCTION.finditer(text):
        clauses = tuple(clauses_from(text, found.end()))
        if clauses:
            yield Contract(found[1], text.count("\n", 0, found.start()) + 1, clauses)


def clauses_from(text: str, at: int) -> Iterator[str]:
    """The clauses of the function whose head goes on here, up to its body or the semicolon that ends it."""
    while True:
        clause = CLAUSE.search(text, at)
        end = end_of_head(text, at)
        if clause is None or clause.start() > end:
            return
        at = end_of_braces(text, clause.end())
        yield " ".join(text[clause.start() : at].split())


def end_of_head(text: str, at: int) -> int:
    """Where the next body, or semicolon outside brackets, is that no clause has before it."""
    depth = 0
    for place in range(at, len(text)):
        mark = text[place]
        depth += (mark in "([") - (mark in ")]")
        if depth == 0 and mark in "{;":
            before = CLAUSE.search(text, at, place)
            return len(text) if before else place
    return len(text)


def end_of_braces(text: str, at: int) -> int:
    """The place behind the brace that closes the one that opens here."""
    depth = 0
    for place in range(at, len(text)):
        depth += (text[place] == OPENED) - (text[place] == CLOSED)
        if depth == 0:
            return place + 1
    return len(text)
