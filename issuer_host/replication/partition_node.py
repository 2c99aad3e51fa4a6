"""One partition on one machine of several: its parts, joined, and what becomes of it when one of them fails.

It follows the partition's stream until the queue delivers here and its own barrier counts. Then it runs the host, by
the careful start, and what the host answers is known to nobody before its records count: no reply is sent, and no next
line of an order or of an account's decline is put. When another's barrier counts it kills the host, and follows again.

A request goes this way:

1. `QueueConsumer.take` gets it from the queue, and `PartitionNode.delivered` gives it to `NodeHost.take`, which puts it
   to the host (`PartitionHost.take`).
2. The host's answer comes to `NodeHost.pass_on`. `RecordedAnswers.write_records` reads the answer's record from the
   journal, and `RuleTurns.recorded` tells the rule of it. The rule has `Replica.publish` write it to the stream.
3. The stream delivers the record to all machines. Here `StreamReader.read` gives it to `RuleTurns.read`. The rule
   counts it, and lets the answer go: `PartitionHost.answered`.
4. `ReplySender.send` sends the reply, and acknowledges the request once the broker has confirmed that.
"""
import time
from typing import Optional

from issuer_host.broker import topology
from issuer_host.broker.types import Channel
from issuer_host.broker.unacknowledged import Delivered
from issuer_host.facts.refusal import Refusal
from issuer_host.files.open_journals import FirstJournals, REPLACED
from issuer_host.host.event_loop import Action, Loop
from issuer_host.replication import positions
from issuer_host.replication.cluster_keys import ClusterKeys
from issuer_host.replication.journal_lock import locked
from issuer_host.replication.message_mac import MessageMacs
from issuer_host.replication.node_file import NodeSettings, PartitionSettings
from issuer_host.replication.node_host import NodeHost
from issuer_host.replication.node_stops import StepGuard
from issuer_host.replication.queue_consumer import QueueConsumer
from issuer_host.replication.replica import Replica
from issuer_host.replication.rule_events import State
from issuer_host.replication.state_teller import StateTeller
from issuer_host.telling.figures import Figures

# A partition that something failed in begins again after so long, twice as long each time up to a limit; as at first
# when nothing failed for a while.
FIRST_DELAY, LAST_DELAY, STEADY_SECONDS = 0.5, 4.0, 60.0
STOPPED = "stopped"


class PartitionNode:
    """A partition's connection, replica and host."""

    def __init__(
        self,
        loop: Loop,
        node: NodeSettings,
        settings: PartitionSettings,
        keys: ClusterKeys,
        figures: Figures,
        writer: positions.Keeper,
    ) -> None:
        self.loop, self.node, self.settings, self.writer = loop, node, settings, writer
        self.macs = MessageMacs(topology.stream_of(settings.number), keys.keys)
        self.guard = StepGuard(self)
        self.teller = StateTeller(f"node: partition {settings.number}", figures)
        self.consumer = QueueConsumer(loop, node, settings.number, figures, self.guard, self)
        self.host = NodeHost(loop, self.guard, node, settings, figures, self.consumer)
        # It is there once the position was read.
        self.replica: Optional[Replica] = None
        self.lock: Optional[int] = None
        self.files = FirstJournals(settings.journal)
        # How long the partition waits before it begins again, and how often it was looked at.
        self.delay = 0.0
        self.looks = 0

    def run(self) -> None:
        """Begins: opens the socket of orders, and connects."""
        self.host.begin()
        self.consumer.open()

    def guarded(self, step: Action) -> None:
        """Takes a step. What fails in it stops this partition alone."""
        self.guard.take(step)

    # The connection

    def connected(self, _: Channel) -> None:
        self.refuse_others()
        if self.replica is None:
            self.lock = self.lock or locked(self.settings.journal)
            self.replica = Replica(self.loop, self.guard, self.node, self.settings, self.macs, self.writer, self)
            self.host.replica = self.replica
        self.replica.connected(self.consumer.link.connection)
        self.tell_state()

    def disconnected(self, why: str) -> None:
        """The connection is lost: what is delivered again is so here or elsewhere."""
        if self.replica is not None:
            self.teller.lost()
            self.replica.disconnected()
        if not self.teller.has_told(why):
            self.tell_state(why)

    def refuse_others(self) -> None:
        """Stops the partition if other journals have the names than it had first: a disk may be gone."""
        if self.files.are_others():
            raise Refusal(f"the journals {self.files.name} {REPLACED}")

    # The queue

    def delivered(self, entry: Delivered) -> None:
        if self.replica is not None:
            self.host.take(entry)
            self.called()

    def called(self) -> None:
        """The queue delivers here from now on. (Without a replica the connection is being closed.)"""
        if self.replica is not None:
            self.replica.rule.called()
            self.tell_state()

    # The replica

    def caught_up(self) -> None:
        self.consumer.stand_in_line()

    def start_host(self) -> None:
        self.host.start()

    def end_host(self) -> None:
        self.consumer.replies.flight.clear()
        self.host.kill()

    def passed_over(self, stream: str, offset: int, why: str) -> None:
        self.teller.passed_over(stream, offset, why)

    # Time

    def look(self, now: float) -> None:
        """A look every half second."""
        self.teller.connected(self.consumer.is_connected)
        self.refuse_others()
        replica = self.replica
        if replica is None:
            return
        replica.rule.look()
        replica.positions.look()
        if self.consumer.is_connected:
            replica.reader.look(now)
        self.looks += 1
        if self.looks % 2 == 0:
            self.host.look()
            replica.journals.seal()
        if self.host.has_full_disk(now):
            self.consumer.begin_anew("the disk takes no record")
            self.tell_state("the disk takes no record: another machine may serve the partition")
        self.teller.look(now, replica.state_now(), self.consumer.replies.flight)
        if replica.rule.state in (State.WAITING, State.SERVING) and now - self.consumer.not_before > STEADY_SECONDS:
            self.delay = 0.0

    # The end

    def begin_again(self, why: str) -> None:
        """Begins again from the position that was written, after a while."""
        self.delay = min(max(2 * self.delay, FIRST_DELAY), LAST_DELAY)
        self.consumer.not_before = time.monotonic() + self.delay
        self.end_all()
        self.consumer.begin_anew(why)
        self.tell_state(why)

    def end_all(self) -> None:
        """Ends what runs over the journals. Nobody is answered."""
        self.consumer.forget()
        self.host.kill()
        self.teller.ended()
        if self.replica is not None:
            self.replica.end()
        self.replica = self.host.replica = None

    def stop(self, why: str) -> None:
        """Stops this partition until the node is started again."""
        self.guard.is_stopped = True
        self.end_all()
        self.host.stop()
        self.consumer.close()
        self.teller.stopped(why)
        self.tell_state(why)

    # What is told

    def state(self) -> str:
        if self.guard.is_stopped:
            return STOPPED
        return State.AWAY.value if self.replica is None else self.replica.rule.state.value

    def tell_state(self, why: str = "") -> None:
        self.teller.tell(self.state(), why)
