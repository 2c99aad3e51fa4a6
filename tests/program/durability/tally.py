"""What all checks share: the program, the library that watches it, a folder to run in, and the counts."""
import os
import shutil
import tempfile
import time
from collections.abc import Callable, Iterator
from contextlib import contextmanager
from functools import partial
from typing import NamedTuple

import checks

from program.durability.watching import Watch

MEMORY = "/dev/shm" if os.access("/dev/shm", os.W_OK) else None


class Tally:
    """The counts of one check, with what it runs."""

    def __init__(self, counts: checks.Tally, watch: Watch, is_short: bool) -> None:
        self.counts = counts
        self.watch = watch
        self.is_short = is_short
        self.notes: list[str] = []

    def expect(self, came: object, expected: object, what: str) -> bool:
        """Counts whether what came is what was expected."""
        return self.counts.expect(came, expected, what)

    def holds(self, fact: bool, what: str) -> bool:
        """Counts whether a fact holds; the words say what does not."""
        return self.counts.holds(fact, what)

    def note(self, text: str) -> None:
        """Adds a figure to the line that sums the check up."""
        self.notes.append(text)


class Check(NamedTuple):
    """A check, by its name on the command line."""

    name: str
    does: str
    body: Callable[[Tally], None]

    def over(self, watch: Watch, is_short: bool) -> checks.Check:
        """The check of a program that is watched."""
        return checks.Check(self.name, self.does, partial(run, self, watch, is_short))


def check_of(body: Callable[[Tally], None]) -> Check:
    """Returns the check that a function is. The first line of its docstring says what it does."""
    return Check(body.__name__, (body.__doc__ or "").strip().splitlines()[0], body)


def run(check: Check, watch: Watch, is_short: bool, counts: checks.Tally) -> None:
    """Runs one check, and prints what it came to."""
    tally = Tally(counts, watch, is_short)
    passed, failed, begun = counts.passed, counts.failed, time.monotonic()
    try:
        check.body(tally)
    finally:
        came = f"{counts.passed - passed} passed, {counts.failed - failed} failed"
        notes = "".join(f", {note}" for note in tally.notes)
        print(f"{check.name}: {came}{notes}, in {time.monotonic() - begun:.1f} s", flush=True)


@contextmanager
def new_folder() -> Iterator[str]:
    """A folder in memory for one run."""
    folder = tempfile.mkdtemp(prefix="durable-", dir=MEMORY)
    try:
        yield folder
    finally:
        shutil.rmtree(folder, ignore_errors=True)
