"""The PIN that a token refused last: no start tries it again by itself, for many tokens lock after a few wrong ones.

A file has a salt and a hash of that PIN, and nothing while the last PIN was right. Starts that share the file try their
PIN one after another, each under its lock: so of several that begin at once with a wrong PIN one tries it.
"""
from __future__ import annotations

import fcntl
import hashlib
import hmac
import os
from types import TracebackType
from typing import Optional

from issuer_host.facts.refusal import Refusal
from issuer_host.files.private_files import check_private

MODE = 0o600
SALT_BYTES = HASH_BYTES = 32
# Cost, block size and lanes of scrypt: some 50 ms and 16 MB for each PIN that is compared.
COST, BLOCK, LANES = 1 << 14, 8, 1


class RefusedPin:
    """The file, open and locked until the end of its `with`."""

    def __init__(self, path: str) -> None:
        self.path = path
        self.held = -1

    def __enter__(self) -> RefusedPin:
        self.held = os.open(self.path, os.O_RDWR | os.O_CREAT | os.O_NOFOLLOW | os.O_CLOEXEC, MODE)
        try:
            check_private(self.path, "file of the refused PIN")
            fcntl.flock(self.held, fcntl.LOCK_EX)
        except BaseException:
            os.close(self.held)
            raise
        return self

    def __exit__(
        self, kind: Optional[type[BaseException]], fault: Optional[BaseException], trace: Optional[TracebackType]
    ) -> None:
        os.close(self.held)

    def check(self, pin: str) -> None:
        """Refuses a PIN that the token refused before."""
        text = os.pread(self.held, SALT_BYTES + HASH_BYTES, 0)
        salt, known = text[:SALT_BYTES], text[SALT_BYTES:]
        if len(known) == HASH_BYTES and hmac.compare_digest(hash_of(pin, salt), known):
            raise Refusal(
                "the token refused this PIN before, and it isn't tried again: many tokens lock after a few tries."
                f" Correct the PIN's file. Or if the PIN is right by now, remove {self.path}"
            )

    def note(self, pin: str) -> None:
        """The token has refused a PIN."""
        salt = os.urandom(SALT_BYTES)
        os.pwrite(self.held, salt + hash_of(pin, salt), 0)

    def forget(self) -> None:
        """The token has taken a PIN."""
        os.ftruncate(self.held, 0)


def hash_of(pin: str, salt: bytes) -> bytes:
    return hashlib.scrypt(pin.encode(), salt=salt, n=COST, r=BLOCK, p=LANES, dklen=HASH_BYTES)
