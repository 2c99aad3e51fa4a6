"""Which records of a machine's journals may be those of its own host: these alone may count nowhere.

A machine that follows takes what counts, and no more. So what its journals have beyond its position comes again where
it reads on from there. If it doesn't, or if another record counts in its place, the stream lost its end: nothing is
truncated then, and the partition stops.

A host's records may count nowhere, if another machine's barrier comes before them. Those may be truncated. So a
position says from which index on each log's records were read in the stream. While a host may record, none need be: the
position says that durably before the host starts. Once the host has ended, all that the journals have then may be its
own, until it counts or is truncated.
"""
from collections.abc import Iterable, Sequence
from typing import Optional, Protocol

from issuer_host.facts.refusal import Refusal
from issuer_host.replication.messages import LOGS

# What a person does where a stream lost its end.
ANEW = (
    "begin it anew from the journals of the machine that served last, which need not be the longest ones: deploy/node"
    " --anew finds that machine, and docs/operate/nodes.md has the steps"
)
# Of each log: from which index on its records were read in the stream. None: no record beyond what counts need be.
Ends = Optional[Sequence[int]]


class Log(Protocol):
    """A shard's journal, or the notes."""

    @property
    def number(self) -> int:
        """Which log it is."""

    @property
    def path(self) -> str:
        """Its file."""

    @property
    def count(self) -> int:
        """How many of its records count."""

    def total(self) -> int:
        """Returns how many records it has."""


class OwnRecords:
    """Up to where a machine's logs may have records of its own host beyond those that count."""

    def __init__(self, ends: Ends) -> None:
        self.ends: "Optional[list[int]]" = None if ends is None else list(ends)

    def opened(self, logs: Sequence[Log]) -> None:
        """A start has read the logs, and no host has them: what comes after what they have isn't one's."""
        before = self.ends
        self.host_ended(logs)
        if before is not None and self.ends is not None:
            self.ends = [min(pair) for pair in zip(before, self.ends)]

    def host_begins(self) -> None:
        """From now on a host may record."""
        self.ends = None

    def host_ended(self, logs: Iterable[Log]) -> None:
        """No host records any more: its records are among those that the logs have."""
        self.ends = [0] * LOGS
        for log in logs:
            self.ends[log.number] = log.total()

    def was_cut(self, log: Log) -> None:
        """What the log has no longer isn't the host's: what comes there is read in the stream."""
        if self.ends is not None:
            self.ends[log.number] = min(self.ends[log.number], log.total())

    def at(self, counts: Sequence[int]) -> "Optional[tuple[int, ...]]":
        """Returns what a position says at which so many records count."""
        return None if self.ends is None else tuple(map(max, self.ends, counts))

    def has_all_of(self, log: Log) -> bool:
        """Whether all records of a log beyond those that count may be the host's."""
        return self.ends is None or log.total() <= max(self.ends[log.number], log.count)

    def refuse_cut(self, log: Log, length: int) -> None:
        """Refuses to truncate a log where a record would go that was read in the stream."""
        if not self.has_all_of(log):
            raise Refusal(
                f"another record counts than record {length} of {log.path}, and this machine read those up to record"
                f" {log.total() - 1} in the stream: the stream lost its end, and another machine went on with it."
                f" Nothing is truncated. End the nodes of all machines, and {ANEW}"
            )

    def refuse_rest(self, logs: Iterable[Log]) -> None:
        """Refuses records that were read in the stream and don't come again, though all that it has was read."""
        for log in logs:
            if not self.has_all_of(log):
                raise Refusal(
                    f"{log.path} has {log.total()} records, which this machine read in the stream, and the stream has"
                    f" {log.count} of them: the stream lost its end. Nothing is truncated. End the nodes of all"
                    f" machines, and {ANEW}"
                )
