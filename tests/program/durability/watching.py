"""Runs the program under the library that watches its calls, and reads what the library logged."""
import errno
import functools
import os
import subprocess
import threading
from collections.abc import Callable, Iterable, Sequence
from typing import IO, NamedTuple, Optional

HERE = os.path.dirname(os.path.abspath(__file__))
# How long a run may take, in seconds, before it is taken for one that hangs.
SECONDS = 240.0

# The classes of files, as the library names them.
JOURNAL, FOLDER, INPUT, OUTPUT, OTHER, ANY = "journal", "folder", "input", "output", "other", "any"

# What a fault does in place of an error: the call takes half of its bytes.
SHORT = -1

# The calls that the library watches, and that the program has and never makes (a wait for a thread, which is made by a
# number, isn't logged).
NEVER_MADE = ("fchmod", "syscall")


class Fault(NamedTuple):
    """Calls that fail: of this name, on files of this class; the first of them, every so many, and so many in all."""

    call: str
    file_class: str = ANY
    first: int = 1
    step: int = 1
    # (0 is for ever)
    times: int = 1
    what: int = errno.EIO

    def __str__(self) -> str:
        return " ".join(map(str, self[:]))

    @property
    def told(self) -> str:
        """The fault in words."""
        error = "takes half of its bytes" if self.what == SHORT else f"fails with {errno.errorcode[self.what]}"
        often = {0: " and each later one", 1: ""}.get(self.times, f" and the next, {self.times} in all")
        return f"the {self.call} of number {self.first} on a file of class {self.file_class}{often} {error}"


class Lie(NamedTuple):
    """Calls that the library tells wrongly, as if the program didn't look: `watch.c` says how."""

    kind: str
    call: str
    file_class: str
    # The call before it on the same file.
    after: str = ANY
    # From this one on.
    first: int = 1

    def __str__(self) -> str:
        return " ".join(map(str, self[:]))


class Call(NamedTuple):
    """A call that the program made."""

    number: int
    thread: int
    name: str
    file_class: str
    file: int
    result: int
    error: int
    # An offset, a length, or flags; and how many bytes were asked for, or a mode.
    first: int
    second: int
    # The path that was opened.
    path: str
    # The bytes that were written.
    data: bytes


class Run(NamedTuple):
    """What came of a run: its words, status (minus a signal's number), output, and calls."""

    words: Sequence[str]
    status: int
    written: bytes
    calls: list[Call]

    @property
    def answers(self) -> list[str]:
        """The whole lines of the output."""
        return self.written.decode("ascii").split("\n")[:-1]


def call_of(line: str) -> Call:
    """Returns the call of a line of the log."""
    number, thread, name, file_class, file, result, error, first, second, last = line.split(" ", 9)
    is_path = name == "open"
    data = b"" if is_path or last == "-" else bytes.fromhex(last)
    numbers = (int(number), int(thread))
    rest = (int(file), int(result), int(error), int(first), int(second))
    return Call(*numbers, name, file_class, *rest, last if is_path else "", data)


def calls_of(path: str) -> list[Call]:
    """Returns the calls of a log. A line that a kill cut off is none."""
    if not os.path.exists(path):
        return []
    with open(path, encoding="utf-8") as log:
        return [call_of(line) for line in log.read().split("\n")[:-1]]


def build(made: str, *words: str) -> str:
    """Compiles C sources, and returns the path of what it made. What the compiler checks by other names is left out."""
    subprocess.run(["cc", "-O1", "-w", "-U_FORTIFY_SOURCE", "-o", made, *words, "-ldl"], check=True)
    return made


def build_library(folder: str) -> str:
    """Compiles the library into a folder, and returns its path."""
    return build(os.path.join(folder, "watch.so"), os.path.join(HERE, "watch.c"), "-shared", "-fPIC")


class Watch:
    """The program, and the library that watches it."""

    def __init__(self, program: str, folder: str) -> None:
        self.program = program
        self.folder = folder
        self.lies: Sequence[Lie] = ()
        self.log = os.path.join(folder, "log")

    @functools.cached_property
    def library(self) -> str:
        return build_library(self.folder)

    def run(
        self,
        folder: str,
        words: Sequence[str],
        groups: Iterable[Sequence[str]] = (),
        faults: Iterable[Fault] = (),
        kill_at: int = 0,
        program: str = "",
    ) -> Run:
        """Runs the program, or another one, in a folder, watched.

        Groups of lines go to its standard input, each after the last one's answers.
        """
        if os.path.exists(self.log):
            os.remove(self.log)
        more = {"LD_PRELOAD": self.library, "WATCH_LOG": self.log, "WATCH_KILL": str(kill_at)}
        more["WATCH_FAULTS"] = "".join(f"{fault};" for fault in faults)
        more["WATCH_LIES"] = "".join(f"{lie};" for lie in self.lies)
        command = [program or self.program, *words]
        status, written = self.converse(folder, command, groups, {**os.environ, **more}, None)
        return Run(words, status, written, calls_of(self.log))

    def run_alone(
        self,
        folder: str,
        words: Sequence[str],
        groups: Iterable[Sequence[str]] = (),
        before: Optional[Callable[[], None]] = None,
    ) -> Run:
        """Runs the program without the library."""
        status, written = self.converse(folder, [self.program, *words], groups, dict(os.environ), before)
        return Run(words, status, written, [])

    def converse(
        self,
        folder: str,
        command: Sequence[str],
        groups: Iterable[Sequence[str]],
        environment: dict[str, str],
        before: Optional[Callable[[], None]],
    ) -> tuple[int, bytes]:
        """The status and the output of a run that is given groups of lines."""
        process = subprocess.Popen(
            command,
            cwd=folder,
            env=environment,
            stdin=subprocess.PIPE,
            stdout=subprocess.PIPE,
            stderr=subprocess.DEVNULL,
            preexec_fn=before,
        )
        assert process.stdin and process.stdout
        hung = threading.Event()
        deadline = threading.Timer(SECONDS, end_hung, (process, hung))
        deadline.start()
        try:
            written = exchange(process.stdin, process.stdout, groups)
            status = process.wait()
        finally:
            deadline.cancel()
            process.stdout.close()
        if hung.is_set():
            raise TimeoutError(f"{' '.join(command)} had not ended after {SECONDS:.0f} s")
        return status, written


def end_hung(process: "subprocess.Popen[bytes]", hung: threading.Event) -> None:
    hung.set()
    process.kill()


def exchange(to: IO[bytes], come: IO[bytes], groups: Iterable[Sequence[str]]) -> bytes:
    """Gives groups of lines to a process, each once the last one is answered, and returns what it writes."""
    written = b""
    try:
        for group in groups:
            to.write("".join(f"{line}\n" for line in group).encode())
            to.flush()
            awaited = written.count(b"\n") + len(group)
            while written.count(b"\n") < awaited:
                piece = os.read(come.fileno(), 65_536)
                if not piece:
                    return written
                written += piece
    except BrokenPipeError:
        pass
    finally:
        try:
            to.close()
        except BrokenPipeError:
            pass
    while piece := os.read(come.fileno(), 65_536):
        written += piece
    return written
