"""The configuration of a start: read once, its wrapped keys unwrapped, and given to the program.

A program gets a configuration whose keys were wrapped, or that only root can read, by a pipe that has no writer any
more: whoever opens the pipe again finds nothing. All other programs get the path.
"""
from __future__ import annotations

import fcntl
import json
import mmap
import os
from collections.abc import Collection, Sequence
from typing import TYPE_CHECKING, Any, Optional

from issuer_host.configuration.members import WRAPPED
from issuer_host.facts.commands import CONFIG
from issuer_host.facts.faults import refuse_if_lasting
from issuer_host.facts.limits import MAX_CONFIGURATION_BYTES, MAX_SHARDS
from issuer_host.facts.refusal import Refusal
from issuer_host.keys.refused_pin import RefusedPin
from issuer_host.keys.wrapped_keys import has_wrapped_keys, text_with, wipe, wrapped_keys

if TYPE_CHECKING:
    from issuer_host.keys.token import Token

# The variable with the token's URI: it belongs to the machine, and configurations go from one machine to another.
TOKEN = "ISSUER_TOKEN"
PACKAGES = "python3-pykcs11 python3-cryptography"
REFUSED_PIN = "refused-pin"
# Linux's fcntl for a pipe's size, and the most that a user without rights may ask for.
SET_PIPE_SIZE = 1031
MOST_IN_PIPE = 1 << 20


class HeldConfiguration:
    """A configuration's text, until a program has it."""

    def __init__(self, path: str, text: bytes) -> None:
        self.path = path
        self.text = text
        # The token that unwraps the keys, once it was found; and the text that the program reads, once it was made.
        self.token: Optional[Token] = None
        self.clear: Optional[bytearray] = None
        try:
            found = json.loads(text)
        except (ValueError, RecursionError):
            found = None
        self.members: dict[str, Any] = found if isinstance(found, dict) else {}

    @property
    def shards(self) -> int:
        """The number of shards. The program judges the remainder."""
        if "shards" not in self.members:
            raise Refusal(f"the configuration {self.path} names no shards; write it again by deploy/partition")
        shards = self.members["shards"]
        if type(shards) is int and 1 <= shards <= MAX_SHARDS:
            return shards
        raise Refusal(f"the configuration {self.path} has {shards!r} shards, and 1 to {MAX_SHARDS} are possible")

    @property
    def has_wrapped_keys(self) -> bool:
        return has_wrapped_keys(self.members)

    def find_token(self, owners: Collection[int] = ()) -> None:
        """Finds the token of this machine if keys are wrapped, and reads its PIN, from a file that these users may own.

        A start by root does so before it goes on as another user, who need not be able to read the PIN.
        """
        if not self.has_wrapped_keys:
            return
        text = os.environ.get(TOKEN)
        if not text:
            what = f"the configuration {self.path} has wrapped keys, and no token is named"
            raise Refusal(f"{what}: set {TOKEN} to its URI, pkcs11:token=NAME;object=KEY?module-path=FILE")
        try:
            from issuer_host.keys.token import opened_token
        except ImportError as fault:
            raise Refusal(f"wrapped keys need {fault.name}: apt-get install {PACKAGES}") from None
        self.token = opened_token(text, owners)

    def unwrap(self, refused_pin: str = "") -> None:
        """Has the token that was found unwrap the keys.

        `refused_pin` is the file that remembers a PIN that the token refused. Without it the PIN is tried in any case.
        """
        if self.token is None:
            return
        wrapped = wrapped_keys(self.members)
        self.token.refused = RefusedPin(refused_pin) if refused_pin else None
        keys = []
        try:
            with self.token as token:
                for one in wrapped:
                    keys.append((one, token.unwrapped(one)))
            self.clear = text_with(self.members, keys)
        finally:
            for _, key in keys:
                wipe(key)

    def path_for_program(self, is_readable: bool) -> str:
        """Returns the path by which the program reads the configuration, from a pipe unless the file itself will do."""
        if self.clear is None and is_readable:
            return self.path
        text = self.clear if self.clear is not None else self.whole_text()
        held = filled_pipe(text, self.path)
        wipe(text)
        return f"/proc/self/fd/{held}"

    def whole_text(self) -> bytearray:
        """Returns the text as it is, or without its blanks if it is too long for a pipe."""
        return bytearray(self.text) if len(self.text) <= MOST_IN_PIPE else text_with(self.members, [])


def filled_pipe(text: bytearray, path: str) -> int:
    """Returns the reading end of a pipe that has a text and no writer, and stays open in a started program."""
    held, given = os.pipe()
    fcntl.fcntl(given, SET_PIPE_SIZE, MOST_IN_PIPE)
    os.set_blocking(given, False)
    if len(text) > MOST_IN_PIPE or os.write(given, text) != len(text):
        raise Refusal(f"the configuration {path} has {len(text):,} bytes, and a pipe holds {MOST_IN_PIPE:,}")
    os.close(given)
    os.set_inheritable(held, True)
    return held


def may_have_wrapped_keys(path: str) -> bool:
    """Whether a configuration's file names wrapped keys. No byte of it is copied into this process."""
    try:
        with open(path, "rb") as file, mmap.mmap(file.fileno(), 0, access=mmap.ACCESS_READ) as text:
            return text.find(f'"{WRAPPED}"'.encode()) >= 0
    except (OSError, ValueError):
        # (it is empty, a pipe, or can't be read: the program says so)
        return False


def refused_pin_path(journal: str, last_run: str = "") -> str:
    """Returns the file that remembers a refused PIN: one for the machine if there is a folder of last runs.

    Otherwise each partition remembers it beside its journals.
    """
    return os.path.join(os.path.dirname(last_run), REFUSED_PIN) if last_run else f"{journal}.{REFUSED_PIN}"


def read_configuration(path: str) -> HeldConfiguration:
    try:
        with open(path, "rb") as file:
            return HeldConfiguration(path, file.read(MAX_CONFIGURATION_BYTES + 1))
    except OSError as fault:
        refuse_if_lasting(fault, f"the configuration {path} can't be read: {fault.strerror}")
        raise


def shards_of(path: str) -> int:
    """Returns the number of shards that a configuration names."""
    return read_configuration(path).shards


def with_configuration(words: Sequence[str], path: str) -> list[str]:
    """Returns the words with another path of the configuration."""
    at = list(words).index(CONFIG.name) + 1
    return [*words[:at], path, *words[at + 1 :]]
