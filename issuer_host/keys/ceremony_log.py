"""The record of key ceremonies: who confirmed which check value, and when. No line has a key."""
from __future__ import annotations

import json
import os
import time
from collections.abc import Callable, Sequence
from dataclasses import dataclass, field

FORM = "%Y-%m-%dT%H:%M:%SZ"
MODE = 0o600


@dataclass(frozen=True)
class Ceremony:
    """What was done with a key, its check value, and the custodians with theirs. A refused one says why."""

    what: str
    key: str
    cipher: str
    check_value: str = ""
    custodians: Sequence[tuple[str, str]] = field(default_factory=tuple)
    refused: str = ""

    def line(self, now: float) -> str:
        row: dict[str, object] = {"at": time.strftime(FORM, time.gmtime(now)), "what": self.what, "key": self.key}
        row["cipher"] = self.cipher
        if self.check_value:
            row["kcv"] = self.check_value
        if self.custodians:
            row["by"] = [{"custodian": name, "kcv": value} for name, value in self.custodians]
        if self.refused:
            row["refused"] = self.refused
        return json.dumps(row) + "\n"


class CeremonyLog:
    """A file of such lines. Each is on the disk before the next step of its ceremony."""

    def __init__(self, path: str, now: Callable[[], float]) -> None:
        self.path = path
        self.now = now

    def append(self, ceremony: Ceremony) -> None:
        held = os.open(self.path, os.O_WRONLY | os.O_APPEND | os.O_CREAT | os.O_NOFOLLOW | os.O_CLOEXEC, MODE)
        try:
            os.write(held, ceremony.line(self.now()).encode())
            os.fsync(held)
        finally:
            os.close(held)
