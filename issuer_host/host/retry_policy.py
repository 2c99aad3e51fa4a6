"""Which lines are held for a moment and put again, as nothing was recorded for them, and for how long.

This is the one place of these times, for bridges, nodes, the gateway, orders, declines and publishers.
"""
import os
import time
from collections.abc import Callable
from typing import Optional

from issuer_host.facts.answers import FRESH, HELD_NUMBERS, Kind, QUEUED, REFUSED, RefusalNumber, SET, kind_of
from issuer_host.facts.troubles import Troubles

# How long a line is held before it is put again, by the refusal's number.
FULL = str(int(RefusalNumber.STORE_FAULT))
HOLD_SECONDS = {str(int(RefusalNumber.PENDING)): 0.02, FULL: 0.5}
# A line that came so long ago isn't held any more: whoever sent it asks again. While the journals take no record for so
# long, no line is: each gets its refusal at once, so that those behind it are answered.
LIMIT_SECONDS = 2.0
# While the journals take no record for so long, new lines aren't put at all, but for one try in each such time.
TRY_SECONDS = 1.0
# A publisher asks again after so long.
PUBLISHER_SECONDS = 1.0
# These answers say that the journals took a record.
TAKEN = (FRESH, QUEUED, SET)
FULL_DISK = "the disk of the journals takes no record"


class RetryPolicy:
    """What is held of a partition's lines."""

    def __init__(self, told: "Callable[[bool], None]" = lambda is_full: None) -> None:
        """`told` is called when the journals take no record any more, and when they take records again."""
        self.told = told
        self.is_told = False
        # Since when the journals take no record; None if they do.
        self.full_since: Optional[float] = None
        self.tried_at = 0.0

    def note(self, kind: Kind, now: float) -> None:
        """An answer came: it may say that the journals take records, or don't."""
        if kind.word in TAKEN:
            self.full_since = None
            if self.is_told:
                self.is_told = False
                self.told(False)
        elif kind.refusal == FULL and self.full_since is None:
            self.full_since = self.tried_at = now
            if not self.is_told:
                self.is_told = True
                self.told(True)

    def seconds_of(self, answer: str, began: float, is_lasting: bool = False) -> Optional[float]:
        """Returns how long to hold a line with this answer, or None if the answer is sent.

        `began`: when the line came. A lasting line is held until it is recorded.
        """
        if self.full_since is None and not self.is_told and not answer.startswith(REFUSED):
            # (most answers: they say nothing new)
            return None
        kind, now = kind_of(answer), time.monotonic()
        self.note(kind, now)
        if kind.refusal not in HELD_NUMBERS:
            return None
        if kind.refusal == FULL and self.full_since is not None:
            began = min(began, self.full_since)
        return HOLD_SECONDS[kind.refusal] if is_lasting or now - began <= LIMIT_SECONDS else None

    def may_try(self, now: float) -> bool:
        """Whether a new line may be put: not while the journals take no record, but for a try each second."""
        if self.full_since is None or now - self.full_since <= TRY_SECONDS:
            return True
        if now - self.tried_at < TRY_SECONDS:
            return False
        self.tried_at = now
        return True


class FullDisk:
    """Tells that the disk of some journals takes no record any more, and that it does again."""

    def __init__(self, journal: str, name: str) -> None:
        self.folder = os.path.dirname(journal)
        self.troubles = Troubles(name)

    def note(self, is_full: bool) -> None:
        if is_full:
            action = f"make room in {self.folder}. New requests are refused or wait; repeats are answered"
            self.troubles.begins(FULL_DISK, action)
        else:
            self.troubles.ends(FULL_DISK, "the disk of the journals takes records again")
