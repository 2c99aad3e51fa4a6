"""The lines of a host: those that it has yet to get, and those that it has, in its order."""
import collections
from collections.abc import Callable
from typing import Optional, Union

from issuer_host.host.lines import Entry, Line


class LineQueue:
    """All lines of a partition that wait for a host's answer."""

    def __init__(self, window: Optional[int] = None) -> None:
        # So many lines the host has at a time; None if whoever adds them has a bound.
        self.window = window
        # (a dict, from which an entry whose time is over is taken out at once)
        self.waiting: dict[Entry, None] = {}
        # What the host has; None if nobody waits for the answer.
        self.given: "collections.deque[Optional[Union[Entry, Line]]]" = collections.deque()

    def __len__(self) -> int:
        return len(self.waiting) + len(self.given)

    def add(self, entry: Entry) -> None:
        self.waiting[entry] = None

    def withdraw(self, entry: Entry) -> bool:
        """Forgets an entry that the host hasn't got. Returns whether it hadn't."""
        return self.waiting.pop(entry, entry) is None

    def next(self, may_pass: Callable[[Entry], bool]) -> Optional[Entry]:
        """The next entry that the host gets; None if there is none, or its window is full."""
        while self.waiting and (self.window is None or len(self.given) < self.window):
            entry = next(iter(self.waiting))
            del self.waiting[entry]
            if may_pass(entry):
                self.given.append(entry)
                return entry
        return None

    def give(self, line: Line) -> None:
        """The host gets a line at once, which isn't put to another one."""
        self.given.append(line)

    def answered(self) -> "Optional[Union[Entry, Line]]":
        """What the host's next answer is to."""
        return self.given.popleft()

    def ended(self) -> None:
        """What the host didn't answer is put to the next one first, in its order."""
        unanswered: dict[Entry, None] = {it: None for it in self.given if isinstance(it, Entry)}
        self.given.clear()
        self.waiting = unanswered | self.waiting

    def entries(self) -> list[Entry]:
        """The entries that the host has or gets next."""
        return [it for it in (*self.given, *self.waiting) if isinstance(it, Entry)]

    def abandon(self) -> None:
        """Nobody waits for an answer any more."""
        self.waiting.clear()
        self.given = collections.deque(None for _ in self.given)

    def clear(self) -> None:
        """There is no host, and nobody waits for an answer."""
        self.waiting.clear()
        self.given.clear()
