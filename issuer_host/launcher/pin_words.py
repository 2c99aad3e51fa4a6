"""The words of `pin` that the launcher fills in: the PIN from a file, and the salt."""
import re
import secrets
from collections.abc import Sequence
from typing import Optional

from issuer_host.facts.commands import COMMANDS, PIN, SALT

PIN_FILE = "--pin-file"
SALT_BYTES = 8
# A PIN and its newline are shorter.
MOST = 64


class NoPin(Exception):
    """A file that has no PIN. The message has nothing of what is in it."""


def filled(words: Sequence[str]) -> list[str]:
    """Returns the program's words: `--pin-file FILE` becomes the PIN, and a salt is drawn if none is given."""
    words = list(words)
    if words[:1] != [COMMANDS["pin"].name] or PIN_FILE not in words:
        return words
    at = words.index(PIN_FILE)
    if at + 1 == len(words) or PIN.name in words:
        raise NoPin(f"{PIN_FILE} takes one FILE, in the place of {PIN.name}")
    words[at : at + 2] = [PIN.name, pin_of(words[at + 1])]
    if SALT.name not in words:
        words[at:at] = [SALT.name, secrets.token_hex(SALT_BYTES)]
    return words


def pin_of(path: str) -> str:
    """Returns the PIN that a file's one line is; /dev/stdin is the input."""
    with open(path, encoding="ascii", errors="replace") as text:
        found: Optional[re.Match[str]] = re.fullmatch(r"([0-9]{4,12})\n?", text.read(MOST))
    if not found:
        raise NoPin(f"the file of {PIN_FILE} has to be {PIN.rule} and a newline")
    return found[1]
