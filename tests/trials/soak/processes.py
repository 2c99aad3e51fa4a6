"""The processes of a form: their memory, descriptors and threads, sampled again and again into a file."""
import contextlib
import csv
import os
import re
import threading
import time
from collections.abc import Callable, Iterator, Sequence
from typing import NamedTuple

SECONDS = 5.0
COMMANDS = re.compile(
    r"(gateway|bridge|node|status|standby|follow|issuer_main|issuer|bridge_main|issuer-rule|beam\.smp)$"
)
# Words that tell apart what one program does.
ROLES = ("--second", "serve")
COLUMNS = ("at", "name", "process", "resident", "descriptors", "threads")


class Sample(NamedTuple):
    """What a process has at a moment of a run: kB, descriptors, threads."""

    at: float
    resident: int
    descriptors: int
    threads: int


Samples = dict[tuple[str, int], list[Sample]]


def tree_of(roots: Sequence[int]) -> Iterator[int]:
    """Returns processes and their descendants."""
    for root in roots:
        with contextlib.suppress(OSError):
            yield root
            for task in os.listdir(f"/proc/{root}/task"):
                with open(f"/proc/{root}/task/{task}/children", encoding="ascii") as text:
                    yield from tree_of([int(word) for word in text.read().split()])


def name_of(process: int) -> str:
    """Returns what a process is: a command's name, and the word that says its role; nothing if it is none of ours."""
    with open(f"/proc/{process}/cmdline", "rb") as text:
        words = [word.decode("latin-1") for word in text.read().split(b"\0")]
    found = next((match[1] for word in words[:4] if (match := COMMANDS.search(os.path.basename(word)))), "")
    role = next((word for word in (*ROLES, "standby") if found and word in words), "")
    return f"{found} {role}".rstrip()


def sample_of(process: int, at: float) -> Sample:
    with open(f"/proc/{process}/status", encoding="ascii", errors="replace") as text:
        said = text.read()
    numbers = {key: int(found[1]) for key in ("VmRSS", "Threads") if (found := re.search(rf"{key}:\s+(\d+)", said))}
    return Sample(at, numbers.get("VmRSS", 0), len(os.listdir(f"/proc/{process}/fd")), numbers.get("Threads", 0))


class Sampler:
    """Writes a line for each process of a form, every few seconds, until it ends."""

    def __init__(self, roots: Callable[[], list[int]], path: str) -> None:
        self.roots, self.path = roots, path
        self.ends = threading.Event()
        self.thread = threading.Thread(target=self.run, daemon=True)

    def __enter__(self) -> "Sampler":
        self.thread.start()
        return self

    def __exit__(self, *_: object) -> None:
        self.ends.set()
        self.thread.join()

    def run(self) -> None:
        began = time.monotonic()
        with open(self.path, "w", encoding="utf-8", newline="") as text:
            lines = csv.writer(text)
            lines.writerow(COLUMNS)
            while not self.ends.wait(SECONDS):
                at = time.monotonic() - began
                for process in set(tree_of(self.roots())):
                    # (one may have ended meanwhile)
                    with contextlib.suppress(OSError):
                        name = name_of(process)
                        if name:
                            one = sample_of(process, at)
                            lines.writerow((f"{at:.1f}", name, process, *one[1:]))
                text.flush()


def read(path: str) -> Samples:
    """Returns the samples of a file by name and process; of a run that was cut, its whole lines."""
    found: Samples = {}
    with open(path, encoding="utf-8", newline="") as text:
        for row in csv.DictReader(text):
            with contextlib.suppress(TypeError, ValueError):
                one = Sample(float(row["at"]), int(row["resident"]), int(row["descriptors"]), int(row["threads"]))
                found.setdefault((row["name"], int(row["process"])), []).append(one)
    return found
