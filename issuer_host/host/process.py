"""One run of the program over a partition's journals, as the bridge's loop sees it: lines in, answers out, an end."""
import collections
import contextlib
import os
import subprocess
from collections.abc import Callable, Sequence
from typing import Optional

from issuer_host.facts.answers import ANSWERS
from issuer_host.facts.proof import ProgramIdentity, program_at
from issuer_host.host.event_loop import Loop
from issuer_host.host.line_pipe import LinePipe, widen

PIECE = 1 << 16
# From the end of its output to its own.
END_SECONDS = 1
# Of what a run writes beside its answers so many lines are kept: a standby writes one for each shard.
LAST_LINES = 32


class HostProcess:
    """A started program. `on_answer` gets each answer line, `on_end` the status and the last line `stop ..` or none."""

    def __init__(
        self,
        loop: Loop,
        command: Sequence[str],
        on_answer: Callable[[str], object],
        on_end: Callable[[int, str], object],
    ) -> None:
        self.loop = loop
        self.on_answer = on_answer
        self.on_end = on_end
        self.unread = b""
        # What it wrote beside its answers.
        self.last_lines: collections.deque[str] = collections.deque(maxlen=LAST_LINES)
        self.answers = 0
        # (if the bridge dies both pipes end, and so does the program)
        self.process = subprocess.Popen(command, stdin=subprocess.PIPE, stdout=subprocess.PIPE, bufsize=0)
        assert self.process.stdin is not None and self.process.stdout is not None
        self.input = LinePipe(loop, self.process.stdin)
        self.output = self.process.stdout
        os.set_blocking(self.output.fileno(), False)
        widen(self.output.fileno())
        loop.add_handler(self.output.fileno(), self.read, loop.READ)

    @property
    def stop_line(self) -> str:
        return self.last_lines[-1] if self.last_lines else ""

    def close_input(self) -> None:
        """Lets the run end: it answers what it was given. Lines that it hasn't taken are dropped."""
        self.input.close()

    def finish_now(self, seconds: float) -> int:
        """Has the run take all lines and end, and waits for it. Returns its status; nothing is called any more."""
        self.loop.remove_handler(self.output.fileno())
        self.input.write_all_now()
        self.close_input()
        try:
            status = self.wait(seconds)
            self.take_last_line()
            return status
        finally:
            self.output.close()

    def take_last_line(self) -> None:
        """Takes what a run that has ended wrote last, as why it stopped. Its answers are nobody's any more."""
        with contextlib.suppress(BlockingIOError):
            while piece := os.read(self.output.fileno(), PIECE):
                self.unread += piece
        *lines, _ = self.unread.split(b"\n")
        for line in lines:
            text = line.decode("ascii", errors="replace")
            if text and text.partition(" ")[0] not in ANSWERS:
                self.last_lines.append(text)

    def program(self) -> Optional[ProgramIdentity]:
        """Returns which program runs; None if it can't be seen."""
        try:
            return program_at(f"/proc/{self.process.pid}/exe")
        except OSError:
            return None

    def kill(self) -> None:
        self.process.kill()

    def kill_now(self) -> None:
        """Kills the run, and waits for its end. Nothing is called any more."""
        self.kill()
        self.loop.remove_handler(self.output.fileno())
        self.close_input()
        self.process.wait()
        self.output.close()

    def read(self, pipe: int, _: int) -> None:
        try:
            piece = os.read(pipe, PIECE)
        except BlockingIOError:
            return
        if not piece:
            self.end()
            return
        *whole, self.unread = (self.unread + piece).split(b"\n")
        # (all lines are decoded together)
        for text in b"\n".join(whole).decode("ascii", errors="replace").split("\n") if whole else ():
            if text.partition(" ")[0] in ANSWERS:
                self.answers += 1
                self.on_answer(text)
            else:
                self.last_lines.append(text)

    def end(self) -> None:
        self.loop.remove_handler(self.output.fileno())
        self.close_input()
        status = self.wait(END_SECONDS)
        self.output.close()
        self.on_end(status, self.stop_line)

    def wait(self, seconds: float) -> int:
        """Returns the status of a run that ends. One that doesn't is killed."""
        try:
            return self.process.wait(timeout=seconds)
        except subprocess.TimeoutExpired:
            self.process.kill()
            return self.process.wait()
