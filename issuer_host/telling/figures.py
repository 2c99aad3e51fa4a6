"""The figures of a bridge, or of all partitions of a node, in Prometheus' text form on the loopback.

They are never fatal: without the library, or without the port, there are none.
"""
import os
from typing import Any, Optional

from issuer_host.facts.answers import DECISIONS, REFUSALS, REFUSED, kind_of
from issuer_host.facts.journals import journals_of
from issuer_host.facts.proof import ProgramIdentity
from issuer_host.facts.statuses import KILLED
from issuer_host.facts.troubles import Level, say
from issuer_host.telling.figures_server import FiguresServer

SECONDS = (0.002, 0.005, 0.01, 0.02, 0.05, 0.1, 0.2, 0.5, 1, 2, 5, 10, 30)
# By the name of an attribute: the kind of figure, its name and what it says.
KINDS = {
    "seconds": ("Histogram", "issuer_answer_seconds", "From a request's delivery to its answer's confirm"),
    "in_flight": ("Gauge", "issuer_lines_in_flight", "Requests delivered and not acknowledged"),
    "oldest": ("Gauge", "issuer_oldest_line_seconds", "Age of the oldest request in flight"),
    "starts": ("Counter", "issuer_host_starts", "Starts of the host"),
    "start_seconds": ("Gauge", "issuer_host_start_seconds", "From the host's last start to its first answer"),
    "began": ("Gauge", "issuer_host_ready_time_seconds", "When the host gave its first answer, in seconds of Unix"),
    "declines": ("Counter", "issuer_account_declines", "Requests that came with an account's decline"),
    "restoring": ("Gauge", "issuer_cards_restoring", "Cards that wait for the status of before an account's decline"),
    "losses": ("Counter", "issuer_connection_losses", "Losses of the broker's connection"),
    "connected": ("Gauge", "issuer_broker_connected", "1 if there is a connection to the broker"),
    "bodies": ("Counter", "issuer_bodies_refused", "Messages that are no request line, sent to the dead letters"),
    "returned": ("Counter", "issuer_answers_returned", "Answers whose reply queue was gone"),
    "dropped": ("Counter", "issuer_answers_dropped", "Answers that their reply queue refused"),
    "bytes": ("Gauge", "issuer_journal_bytes", "Bytes of the partition's journals"),
    "free": ("Gauge", "issuer_journal_disk_free_bytes", "Free bytes of the journals' disk"),
    "active": ("Gauge", "issuer_active", "1 if this bridge runs the partition's host"),
}
# Of a node's partitions besides.
KINDS_OF_NODE = {
    "needed": ("Gauge", "issuer_stream_needed_offset", "The oldest message of the stream that this machine needs"),
    "read": ("Gauge", "issuer_stream_read_offset", "The last message of the stream that was read"),
    "passed_over": ("Counter", "issuer_stream_passed_over", "Messages of the stream that no node wrote"),
    "uncounted": ("Gauge", "issuer_uncounted_seconds", "For how long records of the host wait and none counts"),
    "following": (
        "Gauge",
        "issuer_partition_following",
        "1 if this machine serves the partition, or waits in its line",
    ),
    "serving": ("Gauge", "issuer_partition_serving", "1 if this machine's barrier counts"),
    "stopped": ("Gauge", "issuer_partition_stopped", "1 if the partition is stopped here until somebody acts"),
}
# These have a label each beside the partition.
ANSWERS = ("issuer_answers", "Answers by kind; a refusal has its number", ("partition", "kind", "refusal"))
ENDS = ("issuer_host_ends", "Ends of the host by status; a signal is negative", ("partition", "status"))
PROGRAM = (
    "issuer_program",
    "The program of the partition's last host, by its SHA-256, and 1 if it is the proved one",
    ("partition", "sha256", "proved"),
)
STOPS = (
    "issuer_partition_stop_reason",
    "Why the partition is stopped here until somebody acts, as the log says it",
    ("partition", "reason"),
)
# Characters of a reason that is a label.
REASON = 300
ORDERS = ("issuer_orders", "Lines of orders by what became of them", ("partition", "kind"))


class Nothing:
    """Stands for every figure if none are kept."""

    def __getattr__(self, name: str) -> Any:
        return lambda *words, **more: self


class Kinds:
    """The figures of a process, for any partition."""

    def __init__(self, port: int, more: "dict[str, tuple[str, str, str]]") -> None:
        import prometheus_client

        self.answers_by = prometheus_client.Counter(*ANSWERS)
        self.ends_by = prometheus_client.Counter(*ENDS)
        self.orders_by = prometheus_client.Counter(*ORDERS)
        self.program_by = prometheus_client.Gauge(*PROGRAM)
        self.stops_by = prometheus_client.Gauge(*STOPS)
        self.made: dict[str, Any] = {}
        for attribute, (kind, name, text) in {**KINDS, **more}.items():
            buckets = {"buckets": SECONDS} if kind == "Histogram" else {}
            self.made[attribute] = getattr(prometheus_client, kind)(name, text, ("partition",), **buckets)
        try:
            FiguresServer(port, prometheus_client.generate_latest).start()
        except OSError:
            with_labels = (self.answers_by, self.ends_by, self.orders_by, self.program_by, self.stops_by)
            for made in (*with_labels, *self.made.values()):
                prometheus_client.REGISTRY.unregister(made)
            raise


def kinds_at(port: int, name: str, more: "Optional[dict[str, tuple[str, str, str]]]" = None) -> Optional[Kinds]:
    """Returns the figures of a service at a port; None if there are none, which is reported by its name."""
    if not port:
        return None
    try:
        return Kinds(port, more or {})
    except (ImportError, OSError) as fault:
        say(name, Level.WARNING, f"no figures: {fault}")
        return None


class Figures:
    """The figures of one partition."""

    def __init__(self, partition: int, journal: str, kinds: Optional[Kinds], name: str) -> None:
        # Who reports that the disk can't be measured.
        self.name = name
        self.partition = str(partition)
        self.journal = journal
        self.figures: dict[str, Any] = {}
        self.answers_by: Any = Nothing()
        self.ends_by: Any = Nothing()
        self.orders_by: Any = Nothing()
        self.program_by: Any = Nothing()
        self.stops_by: Any = Nothing()
        # The labels of the program of the last host.
        self.program: list[tuple[str, str, str]] = []
        if kinds is not None:
            self.begin(kinds)

    def __getattr__(self, name: str) -> Any:
        """A figure by its name in `KINDS`, or in `KINDS_OF_NODE`."""
        if name not in KINDS and name not in KINDS_OF_NODE:
            raise AttributeError(name)
        return self.figures.get(name, Nothing())

    def begin(self, kinds: Kinds) -> None:
        self.answers_by = kinds.answers_by
        self.ends_by = kinds.ends_by
        self.orders_by = kinds.orders_by
        self.program_by = kinds.program_by
        self.stops_by = kinds.stops_by
        # (a rate sees no first event of a counter that begins with it)
        for kind in DECISIONS:
            self.answers_by.labels(self.partition, kind, "").inc(0)
        for refusal in REFUSALS:
            self.answers_by.labels(self.partition, REFUSED, str(int(refusal))).inc(0)
        for status in KILLED:
            self.ends_by.labels(self.partition, str(status)).inc(0)
        for attribute, made in kinds.made.items():
            self.figures[attribute] = made.labels(self.partition)

    def answered(self, answer: str, seconds: Optional[float]) -> None:
        kind, refusal = kind_of(answer)
        self.answers_by.labels(self.partition, kind, refusal).inc()
        if seconds is not None:
            self.seconds.observe(seconds)

    def answer_returned(self) -> None:
        self.returned.inc()

    def body_refused(self) -> None:
        self.bodies.inc()

    def answer_dropped(self) -> None:
        self.dropped.inc()

    def declined(self) -> None:
        self.declines.inc()

    def cards_restoring(self, count: int) -> None:
        self.restoring.set(count)

    def started(self) -> None:
        self.starts.inc()
        self.active.set(1)

    def loaded(self, seconds: float, program: Optional[ProgramIdentity]) -> None:
        """The host, of a program, gave its first answer after so long."""
        for labels in self.program:
            self.program_by.remove(*labels)
        self.program = [(self.partition, it.sha256, str(int(it.is_proved))) for it in (program,) if it is not None]
        for labels in self.program:
            self.program_by.labels(*labels).set(1)
        self.start_seconds.set(seconds)
        self.began.set_to_current_time()

    def ordered(self, kind: str) -> None:
        self.orders_by.labels(self.partition, kind).inc()

    def ended(self, status: int) -> None:
        self.ends_by.labels(self.partition, str(status)).inc()
        self.active.set(0)

    def stop(self, why: str) -> None:
        """The partition is stopped until somebody acts."""
        self.stopped.set(1)
        self.stops_by.labels(self.partition, why[:REASON]).set(1)

    def look_at_disk(self) -> None:
        """Measures the journals and their disk."""
        try:
            self.bytes.set(sum(os.path.getsize(path) for path in journals_of(self.journal)))
            found = os.statvfs(os.path.dirname(self.journal) or ".")
            self.free.set(found.f_bavail * found.f_frsize)
        except OSError as fault:
            say(self.name, Level.WARNING, f"the journals' disk can't be measured: {fault.strerror}")
