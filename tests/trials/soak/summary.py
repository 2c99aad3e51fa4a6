"""What the files of a soak come to, also of one that was cut."""
import contextlib
import csv
import os
from collections.abc import Callable, Sequence
from typing import NamedTuple

from trials.soak.processes import Sample, Samples, read
from trials.soak.waits import Waits, all_of

HOUR, MINUTE = 3600.0, 60.0
MINUTES, PROCESSES, WRONG = "minutes.csv", "processes.csv", "wrong"
# So many lines of what was wrong are told, and so much of each.
TOLD, TOLD_CHARACTERS = 5, 300
# A process has a slope if it lives for so long after its own first minutes, in shares of these.
LEAST = 0.5
COUNTED = ("sent", "fresh", "repeats", "advices", "orders", "wrong")


class MinuteRow(NamedTuple):
    """A line of the file of minutes: what a minute of messages came to."""

    seconds: float
    sent: int
    fresh: int
    repeats: int
    advices: int
    orders: int
    wrong: int
    waits: Waits


def row_of(told: "dict[str, str]") -> MinuteRow:
    sent, fresh, repeats, advices, orders, wrong = (int(told[name]) for name in COUNTED)
    return MinuteRow(float(told["seconds"]), sent, fresh, repeats, advices, orders, wrong, Waits(told["waits"]))


def minutes_of(path: str) -> "list[MinuteRow]":
    """Returns the whole lines of a file of minutes."""
    found = []
    with open(path, encoding="utf-8", newline="") as text:
        for told in csv.DictReader(text):
            # (the last line of a run that was cut may be torn)
            with contextlib.suppress(TypeError, ValueError, KeyError):
                found.append(row_of(told))
    return found


def slope(samples: Sequence[Sample], value: Callable[[Sample], int]) -> float:
    """Returns by how much a value grows in an hour, by least squares."""
    if len(samples) < 2:
        return 0.0
    mean = sum(one.at for one in samples) / len(samples)
    spread = sum((one.at - mean) ** 2 for one in samples)
    return HOUR * sum((one.at - mean) * value(one) for one in samples) / spread if spread else 0.0


def late_of(samples: Sequence[Sample], warm: float) -> "list[Sample]":
    """Returns a process's samples after its own first minutes; none if too few follow."""
    found = [one for one in samples if one.at >= samples[0].at + warm]
    return found if found and found[-1].at - found[0].at >= LEAST * warm else []


def growth(name: str, process: int, samples: Sequence[Sample], warm: float) -> str:
    """Returns the line of a process; nothing if it didn't live for long enough."""
    late = late_of(samples, warm)
    if not late:
        return ""
    memory, files, threads = (
        slope(late, value) for value in (lambda one: one.resident, lambda one: one.descriptors, lambda one: one.threads)
    )
    first, last = late[0], late[-1]
    return (
        f"  {name} {process}, {(last.at - first.at) / MINUTE:.0f} min: {first.resident} to {last.resident} kB"
        f" {memory:+.0f} an hour, {last.descriptors} descriptors {files:+.1f}, {last.threads} threads {threads:+.1f}"
    )


def grown(found: Samples, warm: float) -> "list[str]":
    lines = [growth(name, process, samples, warm) for (name, process), samples in sorted(found.items())]
    last = max((samples[-1].at for samples in found.values()), default=0.0)
    short: "dict[str, int]" = {}
    for (name, _), samples in found.items():
        if samples[-1].at < last:
            short[name] = short.get(name, 0) + 1
    ended = ", ".join(f"{count} of {name}" for name, count in sorted(short.items())) or "none"
    return [*(line for line in lines if line), f"  processes that ended meanwhile: {ended}"]


def told(path: str) -> "list[str]":
    """Returns the first lines of what was wrong. A run that goes on, or was cut, has none yet."""
    with contextlib.suppress(FileNotFoundError), open(path, encoding="utf-8") as text:
        return [f"  WRONG: {line[:TOLD_CHARACTERS].rstrip()}" for line in text][:TOLD]
    return []


def summary(folder: str, warm: int) -> str:
    """Returns what a form's folder says; `warm` are the minutes after which slopes begin."""
    rows = minutes_of(os.path.join(folder, MINUTES))
    if not rows:
        return f"{folder}: no whole minute\n"
    seconds = sum(row.seconds for row in rows)
    sums = {name: sum(getattr(row, name) for row in rows) for name in COUNTED}
    # (in the last line nothing is sent any more)
    whole = [row for row in rows if row.sent]
    first, last = (all_of(row.waits for row in part) for part in (whole[:warm], whole[-warm:]))
    every = all_of(row.waits for row in rows)
    lines = [
        f"{os.path.basename(folder.rstrip('/'))}: {seconds / MINUTE:.0f} min, {sums['sent'] / seconds:.1f} messages a"
        f" second: {sums['fresh']} new decisions, {sums['repeats']} repeats, {sums['advices']} advices;"
        f" {sums['orders']} orders; {sums['wrong']} wrong",
        f"  in the first and last {min(warm, len(whole))} min: p50 {first.part(0.5):.1f} and {last.part(0.5):.1f} ms,"
        f" p99 {first.part(0.99):.1f} and {last.part(0.99):.1f} ms; of all p99 {every.part(0.99):.1f} ms, at most"
        f" {every.part(1.0):.0f} ms",
        *grown(read(os.path.join(folder, PROCESSES)), MINUTE * warm),
        *told(os.path.join(folder, WRONG)),
    ]
    return "".join(f"{line}\n" for line in lines)
