"""The lines that a host gets: a request, or a line that no message has."""
import time
from collections.abc import Callable
from typing import Optional

from issuer_host.facts.request_lines import pan_of_line


class Line:
    """A line that no message has: what is called with its answer. It isn't put to another host."""

    __slots__ = ("line", "on_answer")

    def __init__(self, line: bytes, on_answer: Callable[[str], object]) -> None:
        self.line = line
        self.on_answer = on_answer


class Entry:
    """A request. It is put to one host after another until it is answered, or nobody waits for the answer any more."""

    __slots__ = ("line", "began", "is_over", "known_pan")

    def __init__(self, line: bytes, began: Optional[float] = None, pan: Optional[str] = None) -> None:
        self.line = line
        self.known_pan = pan
        self.began = time.monotonic() if began is None else began
        # Whether nobody waits for the answer any more.
        self.is_over = False

    @property
    def pan(self) -> str:
        """The PAN of the line; an empty text if it has none."""
        if self.known_pan is None:
            try:
                self.known_pan = pan_of_line(self.line.decode("ascii"))
            except ValueError:
                self.known_pan = ""
        return self.known_pan
