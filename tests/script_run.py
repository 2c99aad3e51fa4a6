"""A run of a script of the tests: its output, its status, and the end of all that it leaves.

A script that is killed ends neither its brokers and nodes, which have sessions of their own, nor their folders. So one
that is late is interrupted first, as by a person at a terminal: its own ends are run. Then all that it started and that
still runs is killed. A process is known by a word in its environment, which it has from the script.

The output goes to a file. A pipe would be read up to the end of the last process that has it: a script that failed, and
left a node behind, would be waited for up to its limit.
"""
import contextlib
import glob
import os
import secrets
import signal
import subprocess
import tempfile
import time
from collections.abc import Mapping, Sequence
from typing import NamedTuple, Optional

# How the word of the environment begins by which the processes of a run are known. Each run has one of its own, so that
# a script that runs others ends theirs too.
WORD = "ISSUER_TEST_RUN_"
# How long a script may take to end what it began, once it is interrupted; and what is killed to be gone.
END_SECONDS = 60.0
GONE_SECONDS = 10.0
LOOK_SECONDS = 0.05
# What is begun in a shell's background ignores an interrupt, and so does what that starts, unless it is set right.
INTERRUPTED = ("env", "--default-signal=INT")


class ScriptRun(NamedTuple):
    """What a run wrote, its status, how many processes it left that were killed, and its seconds of processors."""

    text: str
    # None if it didn't end within its limit.
    status: Optional[int]
    left: int
    processor_seconds: float


def run_whole(
    command: Sequence[str], folder: str, seconds: float, environment: Optional[Mapping[str, str]] = None
) -> ScriptRun:
    """Runs a command for so many seconds at most. Nothing that it started runs any more at the end."""
    word = WORD + secrets.token_hex(8)
    marked = {**(os.environ if environment is None else environment), word: ""}
    with tempfile.TemporaryFile() as output:
        ran = subprocess.Popen(
            [*INTERRUPTED, *command],
            cwd=folder,
            env=marked,
            stdin=subprocess.DEVNULL,
            stdout=output,
            stderr=subprocess.STDOUT,
            start_new_session=True,
        )
        child = Child(ran)
        try:
            status = child.waited(seconds)
            if status is None:
                ran.send_signal(signal.SIGINT)
                child.waited(END_SECONDS)
        finally:
            left = end_all(word)
            child.waited(GONE_SECONDS)
        output.seek(0)
        return ScriptRun(output.read().decode(errors="replace"), status, left, child.processor_seconds)


class Child:
    """A process that is waited for, and what it and those that it waited for took of processors."""

    def __init__(self, ran: "subprocess.Popen[bytes]") -> None:
        self.ran = ran
        self.processor_seconds = 0.0

    def waited(self, seconds: float) -> Optional[int]:
        """Returns the status with which it ends within so many seconds; None if it doesn't."""
        until = time.monotonic() + seconds
        while self.ran.returncode is None:
            # (a Popen that waits itself doesn't say what was used)
            process, status, used = os.wait4(self.ran.pid, os.WNOHANG)
            if process:
                self.ran.returncode = os.waitstatus_to_exitcode(status)
                self.processor_seconds = used.ru_utime + used.ru_stime
            elif time.monotonic() > until:
                return None
            else:
                time.sleep(LOOK_SECONDS)
        return self.ran.returncode


def end_all(word: str) -> int:
    """Kills the processes of a run, and those that they start meanwhile. Returns how many there were."""
    known: set[int] = set()
    end = time.monotonic() + GONE_SECONDS
    while (found := processes_with(word)) and time.monotonic() < end:
        for process in found:
            with contextlib.suppress(ProcessLookupError):
                os.kill(process, signal.SIGKILL)
        known.update(found)
        time.sleep(LOOK_SECONDS)
    return len(known)


def processes_with(word: str) -> list[int]:
    """Returns the processes whose environment has a word. One that has ended has none."""
    found = []
    for path in glob.glob("/proc/[0-9]*/environ"):
        with contextlib.suppress(OSError), open(path, "rb") as text:
            if f"{word}=".encode() in text.read().split(b"\0"):
                found.append(int(path.split("/")[2]))
    return found


def is_running(process: int) -> bool:
    """Whether a process runs. One that has ended, and that nobody waited for, has no words."""
    with contextlib.suppress(OSError), open(f"/proc/{process}/cmdline", "rb") as text:
        return text.read() != b""
    return False
