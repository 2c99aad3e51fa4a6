"""A run of a program: it ends with the launcher, gets its signals, and its output is passed on as it comes."""
import ctypes
import fcntl
import os
import select
import signal
import subprocess
from collections.abc import Callable, Sequence
from typing import IO, NamedTuple, Optional

SIGNALS = (signal.SIGINT, signal.SIGTERM, signal.SIGHUP)
# Linux's numbers for prctl and fcntl; Python has the second from 3.10 on.
PR_SET_PDEATHSIG = 1
F_SETPIPE_SZ = 1031
# Blocks of answers are up to 2,048 lines.
PIPE_BYTES = 1 << 20
PIECE = 1 << 16
# The last line of an output lies in so many bytes of its end.
TAIL = 4096


class Ended(NamedTuple):
    """How a run ended: its status as a shell has it, the words of its last line, and whether the output took it all."""

    status: int
    last: list[str]
    took_all: bool


class Watch:
    """What is done beside a run. This one does nothing."""

    def began(self) -> None:
        """The program runs: from here on a thread may be started."""

    def wait(self, source: int) -> None:
        """Waits for the first piece of the output."""

    def passed_on(self, piece: bytes) -> None:
        """A piece of the output was passed on."""


def open_descriptors() -> bool:
    """Opens what the caller closed, so that no file becomes the program's input or output.

    Returns whether the output was open.
    """
    is_output_open = True
    for number in (0, 1, 2):
        try:
            os.fstat(number)
        except OSError:
            is_output_open = is_output_open and number != 1
            found = os.open(os.devnull, os.O_RDWR)
            if found != number:
                os.dup2(found, number)
                os.close(found)
    return is_output_open


def ending_with_launcher(by: int = signal.SIGKILL) -> Callable[[], None]:
    """Returns what a child does before it begins, so that it gets this signal where the launcher is killed."""
    parent = os.getpid()
    try:
        prctl = ctypes.CDLL(None).prctl
    except (OSError, AttributeError):
        return lambda: None

    def begin() -> None:
        prctl(PR_SET_PDEATHSIG, by)
        if os.getppid() != parent:
            # (the launcher was killed meanwhile)
            os.kill(os.getpid(), signal.SIGKILL)

    return begin


def write_all(data: bytes) -> None:
    """Writes to the output, also where it takes a part at a time."""
    view = memoryview(data)
    while view:
        try:
            view = view[os.write(1, view) :]
        except BlockingIOError:
            select.select([], [1], [])


def pass_on(source: int, watch: Watch) -> tuple[bytes, bool]:
    """Passes on what a program writes. Returns the last of it, and whether the output took it all."""
    tail = b""
    watch.wait(source)
    while piece := os.read(source, PIECE):
        tail = (tail + piece[-TAIL:])[-TAIL:]
        try:
            write_all(piece)
        except OSError:
            return tail, False
        watch.passed_on(piece)
    return tail, True


def run_program(
    command: Sequence[str],
    watch: Optional[Watch] = None,
    cwd: Optional[str] = None,
    stdin: Optional[int] = None,
    stderr: Optional[IO[bytes]] = None,
) -> Ended:
    """Runs a command, and passes on its output and the signals that the launcher gets."""
    watch = watch or Watch()
    # (no thread runs yet: one that holds a lock while the child is made would hold it there for ever)
    running = subprocess.Popen(
        command,
        bufsize=0,
        stdin=stdin,
        stdout=subprocess.PIPE,
        stderr=stderr,
        cwd=cwd,
        preexec_fn=ending_with_launcher(),
        # (SIGXFSZ stays ignored, as Python has it: at a limit of file size the program answers `refused 15`)
        restore_signals=False,
    )
    assert running.stdout is not None
    for number in SIGNALS:
        signal.signal(number, lambda given, _: send(running, given))
    watch.began()
    source = running.stdout.fileno()
    try:
        fcntl.fcntl(source, F_SETPIPE_SZ, PIPE_BYTES)
    except OSError:
        # (past the user's share of pipe pages: the usual size does)
        pass
    tail, took_all = pass_on(source, watch)
    running.stdout.close()
    status = running.wait()
    last = tail.rstrip(b"\n").rpartition(b"\n")[2].decode(errors="replace").split()
    return Ended(status if status >= 0 else 128 - status, last, took_all)


def send(running: "subprocess.Popen[bytes]", number: int) -> None:
    if running.poll() is None:
        running.send_signal(number)
