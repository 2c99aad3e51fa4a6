"""The programs that the scripts here measure; how the processor time and the instructions of a run are counted."""
import os
import re
import resource
import subprocess
import sys
import tempfile
import time
from collections.abc import Sequence
from typing import NamedTuple

sys.path.insert(0, os.path.dirname(os.path.dirname(os.path.realpath(__file__))))
from issuer_host.facts.paths import HOME, PROGRAM

__all__ = ["BENCH_RUNS", "HOME", "MEMORY", "PROGRAM", "Counted", "Used", "counted", "measured", "need", "number_of"]

# What `rt run` in crates/bench_runs leaves: runs of single parts.
BENCH_RUNS = os.path.join(HOME, "crates/bench_runs/out/bench_runs")
MAKING = {PROGRAM: "./issuer prove", BENCH_RUNS: "`rt run` in crates/bench_runs"}
COLLECTED = re.compile(r"Collected : (\d+)")
# Where a file system in memory lies.
MEMORY = "/dev/shm"


class Counted(NamedTuple):
    """The instructions of a run, and what it wrote."""

    instructions: int
    output: str


class Used(NamedTuple):
    """The processor time of a run in seconds, its own and the system's, the time that it took, and what it wrote."""

    user: float
    system: float
    elapsed: float
    output: str

    @property
    def processor(self) -> float:
        return self.user + self.system


def need(program: str) -> None:
    """Ends the script if a program isn't built."""
    if not os.access(program, os.X_OK):
        sys.exit(f"build the program first: {MAKING.get(program, program)}")


def number_of(usage: str | None, default: int) -> int:
    """Returns the number that is a script's one word, or this one if there is no word."""
    words = sys.argv[1:]
    if not words:
        return default
    if len(words) > 1 or not words[0].isdecimal():
        print(usage, end="", file=sys.stderr)
        sys.exit(2)
    return int(words[0])


def measured(command: Sequence[str], given: str) -> Used:
    """Runs a program over this text, and measures it. One that fails ends the script."""
    before = resource.getrusage(resource.RUSAGE_CHILDREN)
    start = time.perf_counter()
    done = subprocess.run(command, input=given, text=True, stdout=subprocess.PIPE, check=False)
    elapsed = time.perf_counter() - start
    after = resource.getrusage(resource.RUSAGE_CHILDREN)
    if done.returncode:
        sys.exit(f"{command[0]} ended with {done.returncode}")
    return Used(after.ru_utime - before.ru_utime, after.ru_stime - before.ru_stime, elapsed, done.stdout)


def counted(command: Sequence[str], given: str | None = None, more: dict[str, str] | None = None) -> Counted:
    """Counts the instructions of a run by callgrind of valgrind, with more in its environment."""
    with tempfile.TemporaryDirectory() as folder:
        callgrind = ["valgrind", "--tool=callgrind", f"--callgrind-out-file={folder}/callgrind"]
        done = subprocess.run(
            [*callgrind, *command],
            input=given,
            capture_output=True,
            text=True,
            check=True,
            env={**os.environ, **(more or {})},
        )
    found = COLLECTED.search(done.stderr)
    if found is None:
        sys.exit(f"callgrind told no count: {done.stderr[-200:]!r}")
    return Counted(int(found[1]), done.stdout)
