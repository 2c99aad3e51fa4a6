"""The pipe by which a run gets its lines: whole lines at a time, as many as the pipe takes."""
import collections
import contextlib
import fcntl
import os
import struct
import termios
from typing import IO

from issuer_host.facts.limits import RUN_BYTES, RUN_LINES
from issuer_host.host.event_loop import Loop

PIPE_BYTES = 1 << 20
# (Python has the name from 3.10 on)
F_SETPIPE_SZ = 1031
# A write of so many bytes goes into a pipe whole or not at all, so no reader ever sees a torn line.
WHOLE_WRITE = 4096
# Well below the limits of a run.
LAST_LINE = RUN_LINES - 10_000
LAST_BYTE = RUN_BYTES - (1 << 24)


class LinePipe:
    """The lines that a run gets, in their order."""

    def __init__(self, loop: Loop, pipe: IO[bytes]) -> None:
        self.loop, self.pipe = loop, pipe
        self.unwritten: collections.deque[bytes] = collections.deque()
        # How many were put.
        self.lines = self.bytes = 0
        self.is_open, self.is_waiting = True, False
        # Whether it is closed once all lines are written.
        self.is_ending = False
        os.set_blocking(pipe.fileno(), False)
        widen(pipe.fileno())

    def is_full(self) -> bool:
        """Whether the run has to end, and the next one to begin, before its limit."""
        return self.lines >= LAST_LINE or self.bytes >= LAST_BYTE

    def put(self, line: bytes) -> None:
        self.unwritten.append(line + b"\n")
        self.lines += 1
        self.bytes += len(line) + 1

    def flush(self) -> None:
        """Writes what the pipe takes, whole lines at a time, and the remainder when it takes more."""
        try:
            while self.unwritten:
                self.write_some()
        except BlockingIOError:
            if not self.is_waiting:
                self.is_waiting = True
                self.loop.add_handler(self.pipe.fileno(), self.take_more, self.loop.WRITE)
            return
        except BrokenPipeError:
            # (the run is ending; its output's end says how)
            self.unwritten.clear()
        self.wait_no_longer()
        if self.is_ending:
            self.close()

    def write_some(self) -> None:
        """Writes as many lines as go into the pipe in one piece."""
        piece = b""
        count = 0
        for line in self.unwritten:
            if piece and len(piece) + len(line) > WHOLE_WRITE:
                break
            piece += line
            count += 1
        os.write(self.pipe.fileno(), piece)
        for _ in range(count):
            self.unwritten.popleft()

    def write_all_now(self) -> None:
        """Writes all lines, and waits until the pipe has them, or nobody reads it."""
        self.wait_no_longer()
        if self.is_open:
            os.set_blocking(self.pipe.fileno(), True)
            with contextlib.suppress(BrokenPipeError):
                while self.unwritten:
                    self.write_some()

    def take_more(self, _: int, __: int) -> None:
        self.wait_no_longer()
        self.flush()

    def wait_no_longer(self) -> None:
        if self.is_waiting:
            self.is_waiting = False
            self.loop.remove_handler(self.pipe.fileno())

    def untaken(self) -> int:
        """How many bytes the run hasn't read of what was put. None are known of once the pipe is closed."""
        if not self.is_open:
            return 0
        in_pipe = struct.unpack("i", fcntl.ioctl(self.pipe.fileno(), termios.FIONREAD, b"\0" * 4))[0]
        return sum(len(line) for line in self.unwritten) + int(in_pipe)

    def close_when_written(self) -> None:
        self.is_ending = True
        self.flush()

    def close(self) -> None:
        """Closes the pipe. Lines that it hasn't got are dropped."""
        if self.is_open:
            self.is_open = False
            self.unwritten.clear()
            self.wait_no_longer()
            self.pipe.close()


def widen(pipe: int) -> None:
    try:
        fcntl.fcntl(pipe, F_SETPIPE_SZ, PIPE_BYTES)
    except PermissionError:
        # (past the user's share of pipe pages: the usual size does, with less in flight)
        pass
