"""How many lines of a clearing file were judged so far, on a terminal; of how many, if the file's length is known."""
import os
import threading
import time
from typing import Optional

from issuer_host.launcher.messages import tell
from issuer_host.launcher.program_run import Watch

# How often progress is told, in seconds.
TELL_SECONDS = 2.0
PIECE = 1 << 20
# Lines of `clear` that are no verdicts.
NO_VERDICTS = (b"open ", b"total ", b"stop ")


class Judged(Watch):
    """Counts the verdicts that pass, and tells of them now and then."""

    def __init__(self, path: str) -> None:
        self.path = path
        self.lines = 0
        self.all: Optional[int] = None
        self.unread = b""
        self.is_told = False
        self.told_at = time.monotonic()

    def began(self) -> None:
        if os.path.isfile(self.path):
            threading.Thread(target=self.count, daemon=True).start()

    def count(self) -> None:
        """Counts the lines of the file; a nonempty remainder at its end is one too."""
        count, last = 0, b"\n"
        try:
            with open(self.path, "rb") as data:
                while piece := data.read(PIECE):
                    count += piece.count(b"\n")
                    last = piece[-1:]
        except OSError:
            return
        self.all = count + (last != b"\n")

    def passed_on(self, piece: bytes) -> None:
        *lines, self.unread = (self.unread + piece).split(b"\n")
        self.lines += sum(not line.startswith(NO_VERDICTS) for line in lines)
        if time.monotonic() - self.told_at >= TELL_SECONDS:
            self.tell()

    def tell(self) -> None:
        self.is_told = True
        self.told_at = time.monotonic()
        of_all = f" of {self.all:,}" if self.all is not None else ""
        tell(f"{self.lines:,}{of_all} lines judged")

    def ended(self) -> None:
        """Tells of all lines, if it told of some."""
        if self.is_told:
            self.tell()
