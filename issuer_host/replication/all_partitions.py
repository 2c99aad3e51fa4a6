"""All partitions of one machine, in one loop: the machine's node."""
import resource
import signal
import time
from typing import Optional

from issuer_host.facts.statuses import Status
from issuer_host.host.event_loop import new_loop
from issuer_host.replication import positions
from issuer_host.replication.cluster_keys import ClusterKeys
from issuer_host.replication.node_file import NodeSettings, PartitionSettings
from issuer_host.replication.partition_node import PartitionNode, STOPPED
from issuer_host.replication.rule_events import State
from issuer_host.telling.figures import Figures, KINDS_OF_NODE, Kinds, kinds_at
from issuer_host.telling.service_manager import Readiness, notify

NAME = "node"
LOOK_SECONDS = 0.5
STOP_SECONDS = 2.0
# Descriptors of the journals, their seals and pipes: some 4 a shard.
DESCRIPTORS = 65_536
# In these states a partition does its part.
READY = (State.WAITING.value, State.BEGINNING.value, State.SERVING.value, STOPPED)


class AllPartitions:
    """The partitions of NODE.json."""

    def __init__(self, settings: NodeSettings, keys: ClusterKeys) -> None:
        self.status: int = Status.OK
        self.loop = new_loop()
        self.keeper = positions.Keeper(self.loop)
        kinds = kinds_at(settings.figures, NAME, KINDS_OF_NODE)
        self.partitions = [
            PartitionNode(self.loop, settings, one, keys, figures_of(one, kinds), self.keeper)
            for one in settings.partitions
        ]
        # Whether somebody sees that partitions are stopped while the node lives.
        self.has_figures = kinds is not None
        self.readiness = Readiness(NAME)
        self.is_stopping = False

    def run(self) -> int:
        raise_limit()
        for number in (signal.SIGTERM, signal.SIGINT):
            signal.signal(number, lambda *_: self.loop.add_callback_threadsafe(self.stop))
        for partition in self.partitions:
            partition.guarded(partition.run)
        self.look()
        self.loop.start()
        return self.status

    def look(self) -> None:
        now = time.monotonic()
        for partition in self.partitions:
            partition.guarded(lambda: partition.look(now))
        states = [partition.state() for partition in self.partitions]
        if all(state in READY for state in states):
            self.readiness.tell()
        self.readiness.look(", ".join(f"{states.count(state)} {state}" for state in sorted(set(states))))
        if all(state == STOPPED for state in states) and not self.is_stopping and not self.has_figures:
            # (else it stays, and its figures say so: of a node that has ended nobody knows what it lacks)
            self.status = Status.REFUSED
            self.loop.stop()
        self.loop.call_later(LOOK_SECONDS, self.look)

    def stop(self) -> None:
        """Ends all partitions: another machine goes on."""
        if self.is_stopping:
            return
        self.is_stopping = True
        notify(NAME, "STOPPING=1")
        for partition in self.partitions:
            partition.stop("the node ends")
        self.loop.call_later(STOP_SECONDS, self.loop.stop)


def raise_limit() -> None:
    """Lets this process open as many files as all partitions may need."""
    soft, hard = resource.getrlimit(resource.RLIMIT_NOFILE)
    wanted = DESCRIPTORS if hard == resource.RLIM_INFINITY else min(hard, DESCRIPTORS)
    if soft != resource.RLIM_INFINITY and soft < wanted:
        resource.setrlimit(resource.RLIMIT_NOFILE, (wanted, hard))


def figures_of(one: PartitionSettings, kinds: Optional[Kinds]) -> Figures:
    return Figures(one.number, one.journal, kinds, f"{NAME}: partition {one.number}")
