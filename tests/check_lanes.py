"""Functions that run side by side, each in a process of its own: what each wrote and returned, in their order.

A process is forked from this one, so a function finds all that was made before it. What it changes, others don't see.
"""
import contextlib
import os
import signal
import sys
import tempfile
import time
import traceback
from collections.abc import Callable, Iterator, Sequence
from typing import IO, NamedTuple, NoReturn, Optional

from issuer_host.launcher.program_run import ending_with_launcher

LOOK_SECONDS = 0.02
# How long processes may take to end what they began, once this one is interrupted.
END_SECONDS = 30.0
FAILED = 1


class Work(NamedTuple):
    """A function, and whether it begins once all before it have ended."""

    run: Callable[[], str]
    is_last: bool = False


class Ended(NamedTuple):
    """What a function wrote, and what it returned: None if its process ended before, with this status."""

    text: str
    returned: Optional[str]
    status: int


class Lane:
    """A function in a process of its own."""

    def __init__(self, run: Callable[[], str]) -> None:
        self.wrote, self.returned = tempfile.TemporaryFile(), tempfile.TemporaryFile()
        self.status: Optional[int] = None
        end_with_parent = ending_with_launcher(signal.SIGINT)
        # (the child would write once more what stands in a buffer)
        sys.stdout.flush()
        sys.stderr.flush()
        self.process = os.fork()
        if self.process == 0:
            self.work(run, end_with_parent)

    def work(self, run: Callable[[], str], end_with_parent: Callable[[], None]) -> NoReturn:
        """The child: it ends without the ends of blocks that the parent is in."""
        status = FAILED
        try:
            # (a terminal's interrupt reaches the parent, which passes it on)
            os.setpgid(0, 0)
            end_with_parent()
            os.dup2(self.wrote.fileno(), 1)
            os.dup2(self.wrote.fileno(), 2)
            self.returned.write(run().encode())
            self.returned.flush()
            status = 0
        except BaseException:
            traceback.print_exc()
        finally:
            with contextlib.suppress(OSError):
                sys.stdout.flush()
                sys.stderr.flush()
            os._exit(status)

    def has_ended(self) -> bool:
        if self.status is None:
            process, status = os.waitpid(self.process, os.WNOHANG)
            if process:
                self.status = os.waitstatus_to_exitcode(status)
        return self.status is not None

    def ended(self) -> Ended:
        """What it came to, once it has ended."""
        status = FAILED if self.status is None else self.status
        text, returned = (os.pread(file.fileno(), os.fstat(file.fileno()).st_size, 0) for file in self.files())
        self.close()
        return Ended(text.decode(errors="replace"), None if status else returned.decode(), status)

    def files(self) -> tuple[IO[bytes], ...]:
        return self.wrote, self.returned

    def close(self) -> None:
        for file in self.files():
            file.close()

    def end(self, until: float) -> None:
        """Waits until it has ended, and kills it if it is late."""
        while not self.has_ended():
            if time.monotonic() > until:
                os.kill(self.process, signal.SIGKILL)
            time.sleep(LOOK_SECONDS)
        self.close()


def run_in_lanes(works: Sequence[Work], count: int) -> Iterator[Ended]:
    """Runs the works, the first ones first and so many at a time, and yields what they came to, in their order."""
    lanes: list[Lane] = []
    shown = 0
    try:
        while shown < len(works):
            running = sum(not lane.has_ended() for lane in lanes)
            if len(lanes) < len(works) and running < (1 if works[len(lanes)].is_last else count):
                lanes.append(Lane(works[len(lanes)].run))
            elif lanes[shown].has_ended():
                yield lanes[shown].ended()
                shown += 1
            else:
                time.sleep(LOOK_SECONDS)
    finally:
        end_all([lane for lane in lanes if not lane.has_ended()])


def end_all(lanes: Sequence[Lane]) -> None:
    """Interrupts what still runs, as a terminal would, and waits for it."""
    for lane in lanes:
        os.kill(lane.process, signal.SIGINT)
    until = time.monotonic() + END_SECONDS
    for lane in lanes:
        lane.end(until)
