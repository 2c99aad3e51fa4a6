"""Lines of JSON that carry a sum of themselves, so that a bit that a disk changes is found.

The last member of the object is `sum`: SHA-256, in hexadecimal, of the line without that member. Lines that an older
release wrote have none.
"""
import hashlib
import json
import re
from collections.abc import Mapping
from typing import Any

SUM = "sum"
LINE = re.compile(r'(\{.*),"sum":"([0-9a-f]{64})"\}')
# What tells a line that had a sum: one bit that is changed spoils one of these two.
TRACES = re.compile(r'"sum":|[0-9a-f]{64}"\}\Z')
# What a line has that was written whole, and no beginning of one but its last two bytes.
WHOLE = re.compile(r'"sum":"[0-9a-f]{64}|[0-9a-f]{64}"\}')
# What the end of a file has of a line that was written whole, and whose newline is another byte.
ENDED = re.compile(r'[0-9a-f]{64}"\}')


def sum_of(text: str) -> str:
    return hashlib.sha256(text.encode()).hexdigest()


def summed(said: Mapping[str, Any]) -> str:
    """Returns the line of an object, with its sum."""
    text = json.dumps(said, separators=(",", ":"))
    return f'{text[:-1]},"{SUM}":"{sum_of(text)}"}}'


def said_of(line: str) -> "dict[str, Any]":
    """Returns the object of a line, without its sum. A line whose sum is wrong, or that is none, is a ValueError."""
    found = LINE.fullmatch(line)
    text = f"{found[1]}}}" if found else line
    if found and sum_of(text) != found[2]:
        raise ValueError("the line isn't the one that its sum was made of")
    if not found and TRACES.search(line):
        raise ValueError("the line's sum was changed")
    said = json.loads(text)
    if not isinstance(said, dict):
        raise ValueError("the line is no object")
    return said


def may_be_torn(line: str) -> bool:
    """Whether a line that is none may be the beginning of one: a full disk left it, and others were written after."""
    return not line.endswith("}") and not WHOLE.search(line)


def is_torn_end(text: str) -> bool:
    """Whether what follows the last newline of a file may be the beginning of a line that a crash tore."""
    return not ENDED.search(text)
