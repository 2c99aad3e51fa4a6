"""The gateway's figures, in Prometheus' text form on the loopback.

Figures of hosts that the gateway starts itself have the names that a bridge's have, so the same alerts see them.
"""

import bisect
import functools
import os
import time
from collections.abc import Iterator, Mapping
from typing import Callable, NamedTuple, Optional, Union

from issuer_host.facts.answers import DECISIONS, Kind, REFUSED, kind_of
from issuer_host.facts.journals import journals_of
from issuer_host.facts.proof import ProgramIdentity
from issuer_host.facts.statuses import KILLED
from issuer_host.gateway.admission import REASONS
from issuer_host.gateway.log import notice
from issuer_host.gateway.mapping import REFUSALS

# The labels of so many codes in element 39 are kept.
CODES = 256
SECONDS = (0.001, 0.002, 0.005, 0.01, 0.02, 0.05, 0.1, 0.2, 0.5, 1, 2, 5, 10, 30)

# The gateway's own, all counters but those of `GAUGES`.
OWN = {
    "messages": "Messages by what was done with them",
    "responses": "Responses by the code in element 39",
    "unreadable": "Frames that are no message of their dialect",
    "account_answers": "What the account said to requests",
    "account_notices": "What the account was told of requests that it had answered",
    "unstored": "Advices and notices that the spool didn't take in time: nobody acknowledged them",
    "expired": "Messages whose time limit passed before the host's answer",
    "late": "Answers that came after the time limit, and were dropped",
    "retries": "Lines that were put again after refused 12 or 15",
    "connections_begun": "Connections that were taken",
    "connections_ended": "Ends of connections by their cause",
    "refused": "Connections that were refused before their first message, by why",
    "connections": "Connections that are open",
    "handshakes": "TLS handshakes under way",
    "silent": "Accepted sockets that have sent nothing yet",
    "in_flight": "Messages that aren't answered yet",
    "hosts_up": "Partitions whose host can be asked",
    "signed_off": "Connections that are signed off",
    "links_up": "Connections of a dialled link that are open",
    "links_signed_on": "Connections of a dialled link that are signed on",
    "link_dials": "Dials of a link by their outcome",
}
LABELLED = (
    *("messages", "responses", "account_answers", "account_notices", "connections_ended", "refused"),
    *("links_up", "links_signed_on", "link_dials"),
)
GAUGES = ("connections", "handshakes", "silent", "in_flight", "hosts_up", "signed_off", "links_up", "links_signed_on")
# Of hosts that the gateway starts: by partition, as a bridge has them.
OF_HOSTS = {
    "answers": ("counter", "Answers by kind; a refusal has its number"),
    "host_starts": ("counter", "Starts of the host"),
    "host_ends": ("counter", "Ends of the host by status; a signal is negative"),
    "active": ("gauge", "1 if the partition's host answers"),
    "program": ("gauge", "The program of the partition's last host, by its SHA-256, and 1 if it is the proved one"),
    "host_start_seconds": ("gauge", "From the host's last start to its first answer"),
    "host_ready_time_seconds": ("gauge", "When the host gave its first answer, in seconds of Unix"),
    "orders": ("counter", "Lines of orders by what became of them"),
    "account_declines": ("counter", "Requests that came with an account's decline"),
    "cards_restoring": ("gauge", "Cards that wait for the status of before an account's decline"),
    "lines_in_flight": ("gauge", "Lines that have no answer yet"),
    "oldest_line_seconds": ("gauge", "Age of the oldest line in flight"),
    "journal_bytes": ("gauge", "Bytes of the partition's journals"),
    "journal_disk_free_bytes": ("gauge", "Free bytes of the journals' disk"),
}

Labels = tuple[tuple[str, str], ...]
Number = Union[int, float]


class GatewayFigures:
    """Counts since the start, and what is measured when somebody asks."""

    def __init__(self, partitions: int, has_hosts: bool = True) -> None:
        self.late = self.expired = self.retries = self.unreadable = self.connections_begun = self.unstored = 0
        self.connections = self.in_flight = self.handshakes = self.silent = self.signed_off = 0
        self.labelled: dict[str, dict[Labels, Number]] = {name: {} for name in (*LABELLED, *OF_HOSTS)}
        self.has_hosts, self.host_up = has_hosts, [0] * partitions
        # Sets the gauges of the port and of hosts.
        self.measure: Callable[[], None] = lambda: None
        self.buckets = [0] * (len(SECONDS) + 1)
        self.seconds = 0.0
        # The labels of answers, which are made once.
        self.labels: dict[tuple[int, Kind], Labels] = {}
        # (a rate sees no first event of a counter that begins with it)
        for why in REASONS:
            self.labelled["refused"][(("why", why),)] = 0
        for partition in range(partitions):
            self.labelled["host_starts"][of_partition(partition)] = 0
            for status in KILLED:
                self.labelled["host_ends"][(*of_partition(partition), ("status", str(status)))] = 0
            for kind in [*map(Kind, DECISIONS), *(Kind(REFUSED, str(int(it))) for it in REFUSALS)]:
                self.labelled["answers"][labels_of(partition, kind)] = 0

    @property
    def hosts_up(self) -> int:
        return sum(self.host_up)

    def count(self, name: str, *labels: tuple[str, str]) -> None:
        self.add(name, labels)

    def add(self, name: str, labels: Labels) -> None:
        """Counts by labels that are made once, as `count` does."""
        counts = self.labelled[name]
        counts[labels] = counts.get(labels, 0) + 1

    def not_stored(self) -> None:
        self.unstored += 1

    def set(self, name: str, partition: int, value: Number) -> None:
        self.labelled[name][of_partition(partition)] = value

    def answered(self, partition: int, kind: Kind) -> None:
        counts, labels = self.labelled["answers"], self.labels.get((partition, kind))
        if labels is None:
            labels = self.labels[partition, kind] = labels_of(partition, kind)
        counts[labels] = counts.get(labels, 0) + 1

    def of_host(self, partition: int, journal: str) -> "PartitionFigures":
        return PartitionFigures(self, partition, journal)

    def responded(self, code: str, seconds: float) -> None:
        self.add("responses", labels_of_code(code))
        self.seconds += seconds
        self.buckets[bisect.bisect_left(SECONDS, seconds)] += 1

    def set_disk(self, partition: int, disk: "Disk") -> None:
        self.set("journal_bytes", partition, disk.journal_bytes)
        self.set("journal_disk_free_bytes", partition, disk.free_bytes)

    def text(self) -> str:
        self.measure()
        return "".join(f"{line}\n" for line in self.lines())

    def lines(self) -> Iterator[str]:
        for name, help_text in OWN.items():
            ending, kind = ("", "gauge") if name in GAUGES else ("_total", "counter")
            counts = self.labelled[name] if name in self.labelled else {(): getattr(self, name)}
            yield from block_of(f"issuer_gateway_{name}{ending}", kind, help_text, counts)
        yield from self.histogram()
        if self.has_hosts:
            for partition, is_up in enumerate(self.host_up):
                self.set("active", partition, is_up)
            for name, (kind, help_text) in OF_HOSTS.items():
                ending = "_total" if kind == "counter" else ""
                yield from block_of(f"issuer_{name}{ending}", kind, help_text, self.labelled[name])

    def histogram(self) -> Iterator[str]:
        name, total = "issuer_gateway_response_seconds", 0
        buckets: dict[Labels, Number] = {}
        for bound, count in zip((*map(str, SECONDS), "+Inf"), self.buckets):
            total += count
            buckets[(("le", bound),)] = total
        yield from block_of(name, "histogram", "From a message to its response", {})
        yield from lines_of(f"{name}_bucket", buckets)
        yield f"{name}_sum {self.seconds:.6f}"
        yield f"{name}_count {total}"


class Disk(NamedTuple):
    """What the journals of a partition have of their disk."""

    journal_bytes: int
    free_bytes: int


def disk_of(journal: str) -> Optional[Disk]:
    """Measures a partition's journals and their disk; None if they can't be: the host says what is wrong with them."""
    try:
        found = os.statvfs(os.path.dirname(journal) or ".")
        return Disk(sum(map(os.path.getsize, journals_of(journal))), found.f_bavail * found.f_frsize)
    except OSError:
        return None


class PartitionFigures:
    """What a partition's host and its work come to, in the figures of the gateway."""

    def __init__(self, figures: GatewayFigures, partition: int, journal: str) -> None:
        self.figures, self.partition, self.journal = figures, partition, journal
        self.name = ("partition", str(partition))

    def started(self) -> None:
        self.figures.count("host_starts", self.name)

    def loaded(self, seconds: float, program: Optional[ProgramIdentity]) -> None:
        self.figures.host_up[self.partition] = 1
        self.figures.labelled["program"] = {
            labels: value for labels, value in self.figures.labelled["program"].items() if labels[0] != self.name
        }
        if program is not None:
            labels = self.name, ("sha256", program.sha256), ("proved", str(int(program.is_proved)))
            self.figures.labelled["program"][labels] = 1
        self.figures.set("host_start_seconds", self.partition, round(seconds, 3))
        self.figures.set("host_ready_time_seconds", self.partition, round(time.time(), 3))
        notice(f"partition {self.partition}: the host is ready after {seconds:.2f} s")

    def ended(self, status: int) -> None:
        self.figures.host_up[self.partition] = 0
        self.figures.count("host_ends", self.name, ("status", str(status)))

    def answered(self, answer: str, seconds: Optional[float]) -> None:
        """A line was answered; without a time it is put again."""
        self.figures.answered(self.partition, kind_of(answer))
        self.figures.retries += seconds is None

    def ordered(self, kind: str) -> None:
        self.figures.count("orders", self.name, ("kind", kind))

    def declined(self) -> None:
        self.figures.count("account_declines", self.name)

    def cards_restoring(self, count: int) -> None:
        self.figures.set("cards_restoring", self.partition, count)

    def look_at_disk(self) -> None:
        """Whoever asks for figures has the disk measured, in a thread of its own."""


def of_partition(partition: int) -> Labels:
    return (("partition", str(partition)),)


@functools.lru_cache(CODES)
def labels_of_code(code: str) -> Labels:
    return (("code", code),)


@functools.lru_cache(None)
def labels_of_what(what: str) -> Labels:
    """The labels of what is done with a message."""
    return (("what", what),)


def labels_of(partition: int, kind: Kind) -> Labels:
    return ("partition", str(partition)), ("kind", kind.word), ("refusal", kind.refusal)


def block_of(name: str, kind: str, help_text: str, counts: Mapping[Labels, Number]) -> Iterator[str]:
    yield f"# HELP {name} {help_text}"
    yield f"# TYPE {name} {kind}"
    yield from lines_of(name, counts)


def lines_of(name: str, counts: Mapping[Labels, Number]) -> Iterator[str]:
    for labels, count in counts.items():
        words = ",".join(f'{label}="{value}"' for label, value in labels)
        yield f"{name}{f'{{{words}}}' if words else ''} {count}"
