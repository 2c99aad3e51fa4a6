"""What a run of `rt ci` over the whole tree has done, by the lines that it writes.

usage: .ci/run pipes the gate's output through this module, which passes it on as it is, with lines of its own between.
"""
import glob
import re
import sys
import time
from typing import BinaryIO, NamedTuple

from issuer_host.building.estimate import known_seconds
from issuer_host.facts.paths import HOME
from issuer_host.launcher.messages import minutes
from issuer_host.launcher.sources import rows_of

PROOF = re.compile(r"rt: (?P<name>\w+) (proved|is kept: .*)")
TESTS = re.compile(r"rt: (?P<name>\w+): its tests (are proved|are kept: .*)")
EDITS = re.compile(r"rt: (?P<name>\w+): trying its must-fail edits \(\d+\)")
TEST = re.compile(r"#\[test\]")
# Processor seconds of a crate's tests and of an edit: the means of bench/results/gate.csv.
TESTS_SECONDS = 250.0
EDIT_SECONDS = 32.0
# Progress is told so often at most, in seconds, and an estimate is given from so many on.
TELL_SECONDS = 60.0
SETTLED = 300.0


class GateWork(NamedTuple):
    """What a gate does of one kind: the crates that it does it for, with the processor seconds that each takes."""

    pattern: re.Pattern[str]
    what: str
    seconds: dict[str, float]


def has_tests(crate: str) -> bool:
    paths = glob.glob(f"{HOME}/crates/{crate}/src/**/*.rt", recursive=True)
    return any(TEST.search(text_of(path)) for path in paths)


def text_of(path: str) -> str:
    with open(path, encoding="utf-8", errors="replace") as text:
        return text.read()


def work_of_gate() -> list[GateWork]:
    """Returns all that the gate does over this tree."""
    crates = list(rows_of(HOME))
    edits = {name: len(glob.glob(f"{HOME}/crates/{name}/must-fail/*.edit")) for name in crates}
    return [
        GateWork(PROOF, "crates proved", known_seconds(crates)),
        GateWork(TESTS, "crates' tests proved", {name: TESTS_SECONDS for name in crates if has_tests(name)}),
        GateWork(EDITS, "crates' edits begun", {name: EDIT_SECONDS * count for name, count in edits.items() if count}),
    ]


class GateProgress:
    """How much of the gate's work is done, and how long the rest takes at this pace."""

    def __init__(self, work: list[GateWork]) -> None:
        self.work = work
        self.done: list[set[str]] = [set() for _ in work]
        self.began = self.told_at = self.clock()

    def clock(self) -> float:
        return time.monotonic()

    def take(self, line: str) -> str:
        """Takes a line of the gate. Returns one on the progress, or nothing."""
        for work, done in zip(self.work, self.done):
            found = work.pattern.fullmatch(line)
            if found and found["name"] in work.seconds:
                done.add(found["name"])
                return self.told()
        return ""

    def told(self) -> str:
        now = self.clock()
        if now - self.told_at < TELL_SECONDS:
            return ""
        self.told_at = now
        counts = [f"{len(done)} of {len(work.seconds)} {work.what}" for work, done in zip(self.work, self.done)]
        return f"gate: {', '.join(counts)}, after {minutes(now - self.began)}{self.left()}"

    def left(self) -> str:
        elapsed = self.clock() - self.began
        every = sum(sum(work.seconds.values()) for work in self.work)
        did = sum(sum(work.seconds[name] for name in done) for work, done in zip(self.work, self.done))
        if elapsed < SETTLED or not did:
            return ""
        return f"; at this pace about {minutes(elapsed * (every - did) / did)} more"


def pass_on(source: BinaryIO, to: BinaryIO, progress: GateProgress) -> None:
    """Passes on the gate's lines as they come, with those on its progress between."""
    for line in source:
        to.write(line)
        told = progress.take(line.decode(errors="replace").rstrip("\n"))
        to.write(f"{told}\n".encode() if told else b"")
        to.flush()


def main() -> int:
    pass_on(sys.stdin.buffer, sys.stdout.buffer, GateProgress(work_of_gate()))
    return 0
