"""Lines about what others can cause as often as they like: at most so many a second are told."""
import time
from collections.abc import Callable

LINES_A_SECOND = 20


class LimitedTelling:
    """Tells lines by `tell`, and how many it left out when the next second's first line comes."""

    def __init__(
        self,
        tell: Callable[[str], object],
        lines: int = LINES_A_SECOND,
        clock: Callable[[], float] = time.monotonic,
    ) -> None:
        self.write = tell
        self.lines = lines
        self.clock = clock
        self.began = 0.0
        self.told = 0
        self.left_out = 0

    def tell(self, text: str) -> None:
        now = self.clock()
        if now - self.began >= 1.0:
            if self.left_out:
                self.write(f"{self.left_out} more lines of this kind were left out")
            self.began, self.told, self.left_out = now, 0, 0
        if self.told == self.lines:
            self.left_out += 1
            return
        self.told += 1
        self.write(text)
