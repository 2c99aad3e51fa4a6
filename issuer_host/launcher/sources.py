"""The crates that the programs stand on, and the sums of all that a proof of them reads beside the toolchain."""
import hashlib
import os
from collections.abc import Iterable
from typing import NamedTuple

from issuer_host.facts.paths import HOST, PROGRAMS, ProgramName
from issuer_host.facts.proof import sum_of

TOP = HOST.top
PROOF_PARTS = ("src", "specs", "proofs")


class Crate(NamedTuple):
    """A crate's line of crates.txt, and the crates that it names."""

    line: str
    names: list[str]


def rows_of(home: str) -> dict[str, Crate]:
    """Returns the crates of crates.txt. A crate may name libraries of the toolchain, too."""
    rows = {}
    with open(f"{home}/crates.txt", encoding="utf-8") as text:
        for row in text:
            line = row.partition("#")[0].strip()
            head, colon, names = line.partition(":")
            if colon:
                rows[head.split()[0]] = Crate(line, names.split())
    return rows


def programs_of(home: str) -> list[ProgramName]:
    """Returns the programs that a tree has."""
    rows = rows_of(home)
    return [program for program in PROGRAMS if program.top in rows]


def crates_below(home: str, *tops: str) -> dict[str, Crate]:
    """Returns crates, the programs unless others are named, and those below them, each after those that it names."""
    rows = rows_of(home)
    found: dict[str, Crate] = {}

    def visit(name: str) -> None:
        if name in rows and name not in found:
            for below in rows[name].names:
                visit(below)
            found[name] = Crate(rows[name].line, [below for below in rows[name].names if below in rows])

    for top in tops or [program.top for program in programs_of(home)]:
        visit(top)
    return found


def files_of(home: str, crate: str, parts: Iterable[str]) -> list[str]:
    """Returns the paths of the files in these parts of a crate."""
    found = []
    for part in parts:
        path = f"{home}/crates/{crate}/{part}"
        if os.path.isfile(path):
            found.append(path)
        for folder, folders, names in os.walk(path):
            folders.sort()
            found += [f"{folder}/{name}" for name in sorted(names)]
    return found


def sum_or_word(path: str) -> str:
    """Returns a file's sum, or a word that stands for none."""
    try:
        return sum_of(path)
    except OSError:
        return "unreadable"


def sources_of(home: str) -> dict[str, str]:
    """Returns the sums of all that a proof of the programs reads: by crate, of its line and its files."""
    found = {}
    for name, crate in crates_below(home).items():
        total = hashlib.sha256(crate.line.encode())
        for path in files_of(home, name, PROOF_PARTS):
            total.update(f"\n{os.path.relpath(path, home)} {sum_or_word(path)}".encode())
        found[f"crates/{name}"] = total.hexdigest()
    found["HANDLES"] = sum_or_word(f"{home}/HANDLES")
    return found
