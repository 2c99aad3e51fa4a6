"""Whether a program is the one that a record of proof names."""
import hashlib
import json
from typing import Any, NamedTuple

from issuer_host.facts.paths import HOST, PROGRAM, ProgramName, RECORD

PIECE = 1 << 20


def sum_of(path: str) -> str:
    """Returns the SHA-256 of a file, in hexadecimal."""
    total = hashlib.sha256()
    with open(path, "rb") as data:
        while piece := data.read(PIECE):
            total.update(piece)
    return total.hexdigest()


def read_record(path: str = RECORD) -> dict[str, Any]:
    """Returns what a file says about a proof; nothing if it doesn't exist or is none."""
    try:
        with open(path, encoding="utf-8") as text:
            found = json.load(text)
    except (OSError, ValueError):
        return {}
    return found if isinstance(found, dict) else {}


class ProgramIdentity(NamedTuple):
    """Which program there is at a path."""

    sha256: str
    # Whether the record of the proof names it.
    is_proved: bool


def program_at(path: str) -> ProgramIdentity:
    found = sum_of(path)
    return ProgramIdentity(found, found == read_record().get("program"))


def is_proved(program: str = PROGRAM, record: str = RECORD, name: ProgramName = HOST) -> bool:
    """Whether the program is the one that the record of its proof names."""
    named = read_record(record).get(name.member)
    try:
        return named is not None and named == sum_of(program)
    except FileNotFoundError:
        return False
