"""The state of all partitions at a moment: values alone, which `history` makes of figures."""
import enum
from typing import NamedTuple, Optional


class Form(enum.Enum):
    """What a source of figures is."""

    NODE = "node"
    BRIDGE = "bridge"
    GATEWAY = "gateway"
    BROKER = "broker"


class BrokerState(NamedTuple):
    """What a source says of its broker; members are those of queues and streams."""

    running: int
    wanted: int
    online: int
    members: int
    alarms: "tuple[str, ...]"
    # Whether it runs without the others, or in a cluster of its own.
    is_alone: bool


class SourceState(NamedTuple):
    """A machine, a bridge or a gateway."""

    name: str
    form: Form
    # For how long it hasn't answered; 0 if it answers.
    silent: float
    # For how long none of its partitions has had a connection to the broker; 0 if one has.
    unconnected: float
    serves: int
    follows: int
    broker: Optional[BrokerState]


class PartitionState(NamedTuple):
    """A partition, by what all its sources say."""

    number: int
    form: Form
    # Who serves; nothing if nobody does, and for how long nobody has.
    serving: str
    unserved: float
    followers: "tuple[str, ...]"
    stopped: "tuple[str, ...]"
    # Why the first of these stopped it; nothing if its figures don't say.
    stop_reason: str
    # Who had it and doesn't answer.
    silent: "tuple[str, ...]"
    # Messages of the stream that the follower lacks that is most behind.
    behind: Optional[int]
    # Seconds since the last answer; None if none was seen.
    answered: Optional[float]
    rate: float
    in_flight: int
    oldest: float
    # Requests in the broker's queue; None if no broker says so.
    waiting: Optional[int]
    uncounted: float
    journals: float
    free: Optional[float]
    # When the host began (seconds of Unix), and how long that took.
    began: float
    start: float
    # Whether the disk refused a record lately.
    is_refusing: bool


class Change(NamedTuple):
    """Something that became otherwise, with its time in seconds of Unix."""

    at: float
    what: str


class Point(NamedTuple):
    """A moment of the plots."""

    at: float
    rate: float
    silence: float


class ClusterState(NamedTuple):
    """All that one look found."""

    at: float
    sources: "tuple[SourceState, ...]"
    partitions: "tuple[PartitionState, ...]"
    changes: "tuple[Change, ...]"
    points: "tuple[Point, ...]"

    @property
    def has_nodes(self) -> bool:
        return any(source.form is Form.NODE for source in self.sources)
