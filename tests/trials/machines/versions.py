"""Nodes of two versions side by side in one cluster, each with partitions of its own, asked in turn.

What the machine has beside them takes from both alike. So what is compared are pairs of blocks that follow each other.
"""
import contextlib
import os
import time
from collections.abc import Callable, Iterable, Iterator, Sequence
from statistics import median
from typing import NamedTuple

from issuer_host.broker.publisher import PublishedRequest
from issuer_host.facts.partitions import partition_of
from issuer_host.facts.request_lines import pan_of_line
from trials.bridges.cards import distinct_lines
from trials.bridges.farm import CARDS
from trials.bridges.managed import children_of
from trials.machines.asker import ClusterAsker
from trials.machines.machines import Machines

SECONDS = 600.0
NANOSECONDS = 1e9
MS = 1000.0


class Version(Machines):
    """The nodes of a version on all machines of a cluster, with some of its partitions. The first machine serves."""

    def __init__(self, of: Machines, name: str, numbers: Sequence[int], node: str) -> None:
        super().__init__(os.path.join(of.room, name), of.program, of.partitions, of.cluster)
        self.name, self.numbers = name, numbers
        self.configurations = of.configurations
        for one in self.nodes:
            one.command = [node, one.file]

    def start_nodes(self) -> None:
        """Starts the first machine's node, which comes to serve, and then the others."""
        for at, node in enumerate(self.nodes):
            with self.lock:
                node.start()
            if not at:
                self.wait_until_served()
        self.wait_until_ready()

    def where(self) -> str:
        """Returns how many partitions each machine serves."""
        served = [machine.name for machine in map(self.serving, self.numbers) if machine is not None]
        return ", ".join(f"{machine.name} {served.count(machine.name)}" for machine in self.network.machines)


class Processors(NamedTuple):
    """Processor time in seconds: of nodes' own processes, of what they started and still runs, and of brokers."""

    nodes: float
    programs: float
    brokers: float

    def since(self, before: "Processors") -> "Processors":
        return Processors(*(now - then for now, then in zip(self, before)))


class Block(NamedTuple):
    """What came of some lines of a version: requests a second, their times in ms, and processor time of each in ms."""

    rate: float
    times: "list[float]"
    processors: Processors


def processors_of(version: Version) -> Processors:
    own = [node.process.pid for node in version.nodes if node.process is not None]
    programs = [child for pid in own for child in children_of(pid)]
    brokers = [int(pid) for pid in os.listdir("/proc") if pid.isdecimal() and is_broker(version, int(pid))]
    return Processors(*(sum(map(seconds_of, some)) for some in (own, programs, brokers)))


def is_broker(version: Version, pid: int) -> bool:
    """Whether a process is the virtual machine of a broker of the cluster."""
    with contextlib.suppress(OSError), open(f"/proc/{pid}/comm", encoding="ascii") as name:
        if name.read() == "beam.smp\n":
            with open(f"/proc/{pid}/cmdline", encoding="latin-1") as words:
                return version.brokers.folder in words.read()
    return False


def seconds_of(pid: int) -> float:
    """Returns the time that all threads of a process have had a processor, as the scheduler counts it."""
    total = 0.0
    with contextlib.suppress(OSError):
        for thread in os.listdir(f"/proc/{pid}/task"):
            with contextlib.suppress(OSError), open(f"/proc/{pid}/task/{thread}/schedstat", encoding="ascii") as text:
                total += int(text.read().split()[0]) / NANOSECONDS
    return total


class VersionAsker:
    """A publisher with so many requests in flight, to which a block of lines is one measurement."""

    def __init__(self, version: Version, flight: int) -> None:
        self.times: "list[float]" = []
        files = version.publisher_files()[:1]
        self.asker = ClusterAsker(version.partitions, files, flight, SECONDS, self.answered)

    def answered(self, question: PublishedRequest, text: str) -> None:
        if not text.startswith("fresh "):
            raise RuntimeError(f"a new request was answered {text}")
        self.times.append(MS * (time.monotonic() - question.began))

    def block(self, version: Version, lines: Sequence[str]) -> Block:
        self.times.clear()
        used, began = processors_of(version), time.monotonic()
        for _ in self.asker.ask_all(lines):
            pass
        seconds = time.monotonic() - began
        taken = processors_of(version).since(used)
        return Block(len(lines) / seconds, list(self.times), Processors(*(MS * one / len(lines) for one in taken)))


def lines_by_version(versions: Sequence[Version], each: int) -> "dict[str, Iterator[str]]":
    """Returns at least so many different lines of each version's partitions, by its name."""
    partitions = versions[0].partitions
    found: "dict[str, list[str]]" = {version.name: [] for version in versions}
    # (cards don't come to the same number in each partition)
    count = len(versions) * each
    while min(map(len, found.values())) < each:
        count += count // 4
        every = [(partition_of(pan_of_line(line), partitions), line) for line in distinct_lines(CARDS, count)]
        for version in versions:
            found[version.name] = [line for partition, line in every if partition in version.numbers]
    return {name: iter(lines) for name, lines in found.items()}


def pairs_of(
    versions: Sequence[Version], flight: int, size: int, pairs: int, sources: "dict[str, Iterator[str]]"
) -> "list[list[Block]]":
    """Asks blocks of the versions in turn, each pair in the other order than the one before. Returns each pair's."""
    found = []
    with contextlib.ExitStack() as ending:
        asker = VersionAsker(versions[0], flight)
        ending.enter_context(asker.asker)
        for number in range(-1, pairs):
            blocks = {}
            for version in versions[:: 1 if number % 2 else -1]:
                part = [next(sources[version.name]) for _ in range(size)]
                blocks[version.name] = asker.block(version, part)
            # (what begins with the first lines is left out)
            if number >= 0:
                found.append([blocks[version.name] for version in versions])
    return found


def middle(values: Iterable[float]) -> float:
    return median(list(values))


def line_of(version: Version, flight: int, blocks: "list[Block]") -> str:
    """Returns the line of a version: requests a second, times in the middle and at the 99th percentile, processors."""
    times = sorted(time for block in blocks for time in block.times)
    rate, p50, p99 = middle(block.rate for block in blocks), times[len(times) // 2], times[len(times) * 99 // 100]
    spent = (middle(block.processors[kind] for block in blocks) for kind in range(len(Processors._fields)))
    return f"{version.name} {flight} {rate:.0f} {p50:.2f} {p99:.2f} {' '.join(f'{one:.3f}' for one in spent)}"


def ratios_of(pairs: "list[list[Block]]") -> "Iterator[str]":
    """Returns the middle ratio of pairs, with the quartiles: of rates, times in the middle, and processor time."""
    measures: "list[Callable[[Block], float]]" = [
        lambda block: block.rate,
        lambda block: middle(block.times),
        lambda block: block.processors.nodes + block.processors.programs,
    ]
    for measure in measures:
        found = sorted(measure(ours) / measure(other) for ours, other in pairs)
        quarter = len(found) // 4
        yield f"{middle(found):.2f} ({found[quarter]:.2f} to {found[-1 - quarter]:.2f})"
