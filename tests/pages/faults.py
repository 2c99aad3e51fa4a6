"""Reads docs/assurance/faults.txt: each fault with the clause that rules it out, its edits and its tests.

A section begins with `= TITLE`; lines that follow at once are its note. A fault is a paragraph: its first lines say
what goes wrong, and each of the others begins with two spaces and a key, and goes on in lines with more spaces:

    A retry is decided again.
      by `every_run_is_one_history` (one_caller): ..
      edits CRATE `NAME`, `NAME`; CRATE `NAME`
      aside CRATE `NAME`
      tests `NAME` of CRATE, `PATH`

`by` has to be there. `edits` are those that the gate tries, `aside` those that are kept in tests/edits.
"""
import os
import re
from collections.abc import Iterator
from typing import NamedTuple

HOME = os.path.dirname(os.path.dirname(os.path.dirname(os.path.abspath(__file__))))
DATA = "docs/assurance/faults.txt"
KEYS = ("by", "edits", "aside", "tests")
EDITS = re.compile(r"(\w+) (`\w+`(?:, `\w+`)*)")
KEY_LINE = re.compile(r"  (\w+) (\S.*)")
HEAD = "= "


class Edit(NamedTuple):
    """An edit that a fault names: one that the gate tries, or one that is kept aside."""

    crate: str
    name: str
    is_aside: bool

    @property
    def path(self) -> str:
        """Where its file is, from the top of the repository."""
        folder = f"tests/edits/{self.crate}" if self.is_aside else f"crates/{self.crate}/must-fail"
        return f"{folder}/{self.name}.edit"


class Fault(NamedTuple):
    """A fault, with the number of its first line. A test is a path, or a name with its crate."""

    line: int
    title: str
    clause: str
    edits: tuple[Edit, ...]
    tests: tuple[tuple[str, str | None], ...]


class Section(NamedTuple):
    """A section: its title, its note, and its faults."""

    title: str
    note: str
    faults: list[Fault]


class BadFault(Exception):
    """A paragraph that isn't in the form, by its line."""

    def __init__(self, line: int, why: str) -> None:
        super().__init__(f"{DATA}:{line}: {why}")


def edits_in(text: str, is_aside: bool, line: int) -> list[Edit]:
    """Returns the edits that a list names."""
    edits: list[Edit] = []
    for part in text.split("; ") if text else ():
        named = EDITS.fullmatch(part)
        if not named:
            raise BadFault(line, f"edits are CRATE `NAME`, `NAME`; CRATE `NAME`, and not {part!r}")
        edits += [Edit(named[1], name, is_aside) for name in re.findall(r"`(\w+)`", named[2])]
    return edits


def tests_in(text: str) -> tuple[tuple[str, str | None], ...]:
    """Returns the tests that a list names: several names before one `of CRATE` are all of it."""
    tests: list[tuple[str, str | None]] = []
    for names, crate in re.findall(r"(`[^`]+`(?:, `\w+`)*)(?: of (\w+))?", text):
        tests += [(name, crate or None) for name in re.findall(r"`([^`]+)`", names)]
    return tuple(tests)


def fault_of(line: int, lines: list[str]) -> Fault:
    """Returns the fault that a paragraph is."""
    title: list[str] = []
    parts: dict[str, str] = {}
    last = ""
    for text in lines:
        keyed = KEY_LINE.fullmatch(text)
        if keyed:
            last = keyed[1]
            if last not in KEYS or last in parts:
                raise BadFault(line, f"{last!r} is no key, or stands twice: the keys are {', '.join(KEYS)}")
            parts[last] = keyed[2]
        elif last:
            parts[last] += f" {text.strip()}"
        else:
            title.append(text)
    if "by" not in parts or not title[0:1] or title[0].startswith(" "):
        raise BadFault(line, "a fault begins with what goes wrong, and has a line `  by ..`")
    edits = [*edits_in(parts.get("edits", ""), False, line), *edits_in(parts.get("aside", ""), True, line)]
    return Fault(line, " ".join(title).rstrip("."), parts["by"], tuple(edits), tests_in(parts.get("tests", "")))


def paragraphs(text: str) -> Iterator[tuple[int, list[str]]]:
    """The paragraphs of a text, each with the number of its first line."""
    begun, lines = 0, list[str]()
    for number, line in enumerate([*text.split("\n"), ""], 1):
        if line.strip():
            begun = begun if lines else number
            lines.append(line)
        elif lines:
            yield begun, lines
            lines = []


def sections() -> list[Section]:
    """Returns the sections of the file. A paragraph that isn't in the form is refused."""
    with open(os.path.join(HOME, DATA), encoding="utf-8") as text:
        whole = text.read()
    found: list[Section] = []
    for line, lines in paragraphs(whole):
        if lines[0].startswith(HEAD):
            found.append(Section(lines[0].removeprefix(HEAD), " ".join(lines[1:]), []))
        elif not lines[0].startswith("#"):
            if not found:
                raise BadFault(line, f"a fault stands before the first section: begin one by {HEAD!r}")
            found[-1].faults.append(fault_of(line, lines))
    return found
