"""What the gateway tells: a line an event with its level, on the error output.

No line has chip data, and a PAN only masked.
"""

import time
from typing import Callable

from issuer_host.facts.limited import LINES_A_SECOND, LimitedTelling
from issuer_host.facts.troubles import Level, say

NAME = "gateway"


def notice(text: str) -> None:
    say(NAME, Level.NOTICE, text)


def warn(text: str) -> None:
    say(NAME, Level.WARNING, text)


def fail(text: str) -> None:
    """Tells of what leaves messages without an answer until a person acts."""
    say(NAME, Level.ERROR, text)


class Limited(LimitedTelling):
    """Warns of what peers and cards can cause as often as they like."""

    def __init__(self, lines: int = LINES_A_SECOND, clock: Callable[[], float] = time.monotonic) -> None:
        super().__init__(warn, lines, clock)
