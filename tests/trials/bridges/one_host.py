"""One host at a pipe, with a number of lines in flight."""
import collections
import os
import sys
import time
from collections.abc import Iterator, Mapping, Sequence

from issuer_host.facts.answers import FRESH
from issuer_host.host.event_loop import new_loop
from issuer_host.host.process import HostProcess


class OneHost:
    """A run over new requests, which measures how long each answer takes."""

    def __init__(
        self, command: Sequence[str], lines: Sequence[str], environment: Mapping[str, str], seconds: float
    ) -> None:
        self.unput: Iterator[str] = iter(lines)
        self.seconds = seconds
        self.began: collections.deque[float] = collections.deque()
        self.taken: list[float] = []
        # (the first answer comes when it has begun)
        self.has_begun = False
        self.start = time.monotonic()
        self.loop = new_loop()
        os.environ.update(environment)
        self.host = HostProcess(self.loop, command, self.answered, lambda *_: self.loop.stop())
        for name in environment:
            del os.environ[name]

    def put(self, count: int) -> None:
        for _ in range(count):
            line = next(self.unput, None)
            if line is None or time.monotonic() - self.start > self.seconds:
                break
            self.began.append(time.monotonic())
            self.host.input.put(line.encode())
        self.host.input.flush()
        if not self.began:
            self.host.close_input()

    def answered(self, text: str) -> None:
        if not text.startswith(FRESH):
            sys.exit(f"a new request was answered {text}")
        self.taken.append(time.monotonic() - self.began.popleft())
        if self.has_begun:
            self.put(1)
        else:
            self.loop.stop()

    def measure(self, flight: int) -> tuple[list[float], float]:
        """Returns how long each answer took, and all of them together."""
        self.start = time.monotonic()
        self.put(1)
        self.loop.start()
        self.has_begun = True
        self.start = time.monotonic()
        self.taken.clear()
        self.put(flight)
        self.loop.start()
        return self.taken, time.monotonic() - self.start
