"""How long a run of proofs takes: by measured seconds, dealt as `rt ci` deals its proofs, and by the run's own pace."""
import os
import re
import time
from collections.abc import Collection, Mapping
from typing import NamedTuple

from issuer_host.facts.paths import BUILD, HOME
from issuer_host.launcher.sources import Crate

# Processor seconds of each crate's proof: those measured before, and those of the last run here.
SECONDS = os.path.join(HOME, "bench/prove_seconds.txt")
OWN_SECONDS = os.path.join(BUILD, "prove_seconds")
# A crate that no file names takes so long, if none is named.
USUAL_SECONDS = 60.0
NUMBER = re.compile(r"[0-9]+(\.[0-9]+)?")
# `rt ci` gives a proof so many processors at most.
MOST_JOBS = 4
# Each job beside the first shortens a proof by so much: libraries are read, and lemmas checked, by one alone.
SHARE_OF_A_JOB = 0.2
# Until a run has taken this long, in seconds, the measured pace counts as much as the run's own.
SETTLING = 60.0
# A proof that takes longer than it should goes on for this share of what it has taken, and is late from here on.
SHARE_LEFT = 0.25
LATE = 2.0


class Lanes(NamedTuple):
    """How many processors the proofs may use, and whether the environment fixes their number."""

    number: int
    is_fixed: bool


def lanes_of() -> Lanes:
    wanted = os.environ.get("RT_JOBS", "")
    if wanted.isdigit() and int(wanted):
        return Lanes(int(wanted), True)
    return Lanes(len(os.sched_getaffinity(0)), False)


def read_seconds(path: str) -> dict[str, float]:
    """Returns the processor seconds of each crate that a file names, one a line."""
    found = {}
    try:
        with open(path, encoding="utf-8") as text:
            for line in text:
                words = line.partition("#")[0].split()
                if len(words) == 2 and NUMBER.fullmatch(words[1]):
                    found[words[0]] = float(words[1])
    except OSError:
        pass
    return found


def known_seconds(crates: Collection[str]) -> dict[str, float]:
    """Returns the processor seconds of each crate: those of the last run here, those measured before, or the usual."""
    known = read_seconds(SECONDS) | read_seconds(OWN_SECONDS)
    usual = sum(known.values()) / len(known) if known else USUAL_SECONDS
    return {name: known.get(name, usual) for name in crates}


def speed_of(jobs: int) -> float:
    """Returns how much faster a proof is with so many jobs."""
    return 1 + SHARE_OF_A_JOB * (jobs - 1)


class Schedule:
    """Proofs, dealt to processors as `rt ci` deals them: first the one with the longest chain of others behind it."""

    def __init__(self, crates: Mapping[str, Crate], seconds: Mapping[str, float], lanes: Lanes) -> None:
        self.below = {name: [below for below in crate.names if below in crates] for name, crate in crates.items()}
        self.seconds, self.lanes = dict(seconds), lanes
        behind = dict.fromkeys(self.below, 0.0)
        for name in reversed(list(self.below)):
            behind[name] += self.seconds[name]
            for below in self.below[name]:
                behind[below] = max(behind[below], behind[name])
        self.order = sorted(self.below, key=lambda name: -behind[name])

    def left(self, done: Collection[str] = (), begun: Mapping[str, float] = {}) -> float:
        """Returns how long the proofs take that aren't done, if those begun have this share of their seconds left."""
        ended = set(done)
        waiting = [name for name in self.order if name not in ended]
        running: dict[str, tuple[float, int]] = {}
        now = 0.0
        while waiting or running:
            ready = [name for name in waiting if ended.issuperset(self.below[name])]
            ready.sort(key=lambda name: name not in begun)
            for at, name in enumerate(ready):
                idle = self.lanes.number - sum(jobs for _, jobs in running.values())
                if idle > 0:
                    jobs = 1 if self.lanes.is_fixed else max(1, min(MOST_JOBS, idle // (len(ready) - at)))
                    share = begun.get(name, 1.0)
                    running[name] = now + share * self.seconds[name] / speed_of(jobs), jobs
                    waiting.remove(name)
            first = min(running, key=lambda name: running[name][0])
            now = running.pop(first)[0]
            ended.add(first)
        return now


class Estimate:
    """How long the rest of a run takes: what is left by measured seconds, scaled by the run's own pace."""

    def __init__(self, crates: Mapping[str, Crate], lanes: Lanes) -> None:
        self.crates, self.lanes = crates, lanes
        self.seconds = known_seconds(crates)
        self.done: set[str] = set()
        # When each proof was first seen.
        self.begun_at: dict[str, float] = {}
        self.began = self.clock()
        self.plan()

    def clock(self) -> float:
        return time.monotonic()

    def plan(self) -> None:
        self.schedule = Schedule(self.crates, self.seconds, self.lanes)
        self.whole = self.schedule.left()

    def passed(self, name: str, is_kept: bool) -> None:
        """Counts a crate as proved: in this run, or in an earlier one, which takes no time."""
        self.done.add(name)
        if is_kept:
            self.seconds[name] = 0.0
            self.plan()

    def runs(self, names: Collection[str]) -> None:
        """Takes note of proofs that run now."""
        for name in names:
            if name in self.crates:
                self.begun_at.setdefault(name, self.clock())

    def left(self) -> float:
        """Returns how many seconds are left: the more, the longer nothing ends."""
        pace = self.pace(1.0)
        return self.planned(pace) * self.pace(pace)

    def pace(self, pace: float) -> float:
        """Returns how many times as long as planned the run has taken so far, if its proofs run at this pace."""
        did = max(self.whole - self.planned(pace), 0.0)
        return (self.clock() - self.began + SETTLING) / (did + SETTLING)

    def planned(self, pace: float) -> float:
        """Returns how long the rest takes as measured, if those proofs that run take this many times their seconds."""
        taken = {name: self.taken(name, pace) for name in self.begun_at if name not in self.done}
        return self.schedule.left(self.done, {name: max(1 - it, SHARE_LEFT * it) for name, it in taken.items()})

    def taken(self, name: str, pace: float) -> float:
        """Returns what part of its time a proof has taken at this pace: more than 1 if it takes longer."""
        usual = self.seconds[name] * pace
        return (self.clock() - self.begun_at[name]) / usual if usual else 0.0

    def late(self) -> list[str]:
        """Returns the proofs that have run for more than twice their time."""
        pace = self.pace(1.0)
        return [name for name in self.begun_at if name not in self.done and self.taken(name, pace) > LATE]


def write_seconds(seconds: Mapping[str, float], crates: Collection[str]) -> None:
    """Leaves the processor seconds of what was proved here, for later estimates."""
    known = read_seconds(OWN_SECONDS) | {name: spent for name, spent in seconds.items() if spent >= 1}
    with open(OWN_SECONDS, "w", encoding="utf-8") as text:
        text.writelines(f"{name} {spent:.0f}\n" for name, spent in known.items() if name in crates)
