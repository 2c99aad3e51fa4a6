"""What the rule of a partition is told, and what it says to do: events in, actions out.

Who decides is a `PartitionRule`. `bridge_rule` has the rule of this version behind it, and a program may take its
place. A rule has no journals, no broker and no clock. It knows the last barrier that counts, how many records of each
shard do, and those that the journals have beyond. A node tells it what happens, by `rule_turns`.

- First it is told what the journals have beyond the position: `Has` for each record, and `Told`.
- When it says `End`, it is told what the host wrote last, by `Has` and `Told`, before the next message. It says `Ready`
  then, if another machine serves.
- When it says `Begin`, it knows just what counts. It is told what is beyond by `Has`, and then `HostLoaded`.
- While it serves, what a host recorded is `Has` for each record, and `Told`: then it has them written.
- What counts with a message is said by `BarrierCounts` and `RecordsCount`, after what becomes of the journals, and
  before all else.
"""
import enum
from collections.abc import Sequence
from typing import NamedTuple, Optional, Protocol, Union

from issuer_host.replication.messages import Barrier, Place, Record

# For so many records of a shard beyond those that count a rule has room at least.
MOST_BEYOND = 128
# Why a rule stops for good: a record counts that the host which serves didn't record.
DIVERGED = "diverged"


class State(enum.Enum):
    """Where a bridge stands: without a connection, reading what there is, in line, its barrier written, or active."""

    AWAY = "away"
    READING = "reading"
    WAITING = "waiting"
    BEGINNING = "beginning"
    SERVING = "serving"


class Has(NamedTuple):
    """The journals have this record: the next one of its shard that the rule doesn't know."""

    record: Record


class Told(NamedTuple):
    """The rule knows what the journals have."""


class Connected(NamedTuple):
    """The stream can be read and written. A mark of this word says how far there is to read."""

    word: str


class Lost(NamedTuple):
    """The connection is lost."""


class Called(NamedTuple):
    """The queue delivers here. A barrier may have this name, which none had before."""

    name: str


class MessageRead(NamedTuple):
    """The stream's next message that a node wrote: its text."""

    text: str


class HostLoaded(NamedTuple):
    """The host has loaded the journals, and has no line yet."""


class HostEnded(NamedTuple):
    """The host has ended by itself."""


class Answered(NamedTuple):
    """The host has answered, its next answer in its order. Its record, if it names one, was told before."""

    number: int
    place: "Optional[Place]" = None


class Again(NamedTuple):
    """Nothing came for a while, or something is missing: what didn't come back is written again."""


class AppendRecord(NamedTuple):
    """Append this record, which counts, to its journal."""

    record: Record


class TruncateJournal(NamedTuple):
    """Truncate a shard's journal to so many records."""

    shard: int
    length: int


class BarrierCounts(NamedTuple):
    """This barrier counts from now on."""

    barrier: Barrier


class RecordsCount(NamedTuple):
    """So many records of a shard count from now on. The journal has them."""

    shard: int
    number: int


class Publish(NamedTuple):
    """Write a message of this text to the stream."""

    text: str


class Ready(NamedTuple):
    """Stand in the line of the queue's consumers."""


class Begin(NamedTuple):
    """Start the host over the journals."""


class End(NamedTuple):
    """Kill the host. Nobody is answered any more."""


class Reply(NamedTuple):
    """Send the reply of this answer."""

    number: int


class Stop(NamedTuple):
    """Stop the partition. Nothing of what happened was taken."""

    why: str


Event = Union[Has, Told, Connected, Lost, Called, MessageRead, HostLoaded, HostEnded, Answered, Again]
Action = Union[AppendRecord, TruncateJournal, BarrierCounts, RecordsCount, Publish, Ready, Begin, End, Reply, Stop]


class Beginning(NamedTuple):
    """What a rule begins with: its machine's name, and what counts at its position."""

    machine: str
    barrier: Barrier
    counts: "tuple[int, ...]"


class PartitionRule(Protocol):
    """A partition's rule on one machine, from a position on."""

    def take(self, *events: Event) -> Sequence[Action]:
        """Takes what happened, in this order. Returns what is to be done, in this order.

        A rule that can't go on raises TransientFault: another one begins from the position.
        """

    def look(self) -> None:
        """Raises TransientFault if it can't go on."""

    def end(self) -> None:
        """It is asked nothing more."""
