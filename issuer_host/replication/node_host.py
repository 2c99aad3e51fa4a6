"""The host that a node runs for a partition while it serves, and what is put to it."""
from typing import Optional

from issuer_host.broker.replies import NO_REPLY_QUEUE, NO_REQUEST
from issuer_host.broker.unacknowledged import Delivered
from issuer_host.facts.refusal import Refusal
from issuer_host.facts.statuses import Status, meaning_of
from issuer_host.host.command import StartOptions, serving_command
from issuer_host.host.event_loop import Action, Loop
from issuer_host.host.line_host import HostSettings
from issuer_host.host.supervisor import moment_of
from issuer_host.orders.partition_host import PartitionHost
from issuer_host.replication.node_file import NodeSettings, PartitionSettings
from issuer_host.replication.node_stops import StepGuard
from issuer_host.replication.notes import NotedWork, Notes
from issuer_host.replication.queue_consumer import QueueConsumer
from issuer_host.replication.replica import Replica
from issuer_host.replication.standby_run import TransientFault
from issuer_host.start.careful_start import NODE
from issuer_host.telling.figures import Figures

# A disk that takes no record for so long lets another machine serve, and so do so many hosts in turn that end unloaded.
FULL_SECONDS = 3.0
FAILED_STARTS = 2


class NodeHost:
    """A partition's host. Its answers, and its notes of work on cards, wait until the replica's records count."""

    def __init__(
        self,
        loop: Loop,
        guard: StepGuard,
        node: NodeSettings,
        settings: PartitionSettings,
        figures: Figures,
        consumer: QueueConsumer,
    ) -> None:
        self.loop, self.guard, self.consumer, self.machine = loop, guard, consumer, node.machine
        # The replica whose journals the host has; None while the partition has none.
        self.replica: Optional[Replica] = None
        # How many hosts in turn ended before they had loaded the journals.
        self.failed_starts = 0
        start = StartOptions(node.program or "", NODE, settings.last_run)
        command = serving_command(settings.configuration, settings.journal, settings.callers, start)
        name = f"node: partition {settings.number}"
        moment = moment_of(settings.number)
        host = HostSettings(command, settings.journal, name, orders=settings.orders, moment=moment, is_batched=True)
        self.serving = PartitionHost(
            loop, host, figures, consumer.replies, self, self, NotedWork(settings.journal, self, name)
        )
        self.serving.orders.served_by = self.served_by

    def begin(self) -> None:
        """Opens the socket of orders."""
        self.serving.orders.open()

    def start(self) -> None:
        """Starts the host, which gets what was delivered so far."""
        self.serving.is_served = True
        for entry in self.consumer.unsettled():
            self.take(entry)
        self.serving.hosting.want()

    def take(self, entry: Delivered) -> None:
        """Puts a request to the host, if this machine serves: else it waits for that."""
        if not self.serving.is_served:
            return
        if not entry.reply_to:
            self.consumer.refuse(entry, NO_REPLY_QUEUE)
        elif not self.serving.take(entry):
            self.consumer.refuse(entry, NO_REQUEST)

    def kill(self) -> None:
        """Kills the host. Nobody is answered, and it has ended when this returns."""
        self.serving.kill()

    def stop(self) -> None:
        self.serving.stop()

    def look(self) -> None:
        self.serving.look()

    def has_full_disk(self, now: float) -> bool:
        """Whether the disk has taken no record for so long that another machine may serve."""
        since = self.serving.retries.full_since
        is_full = since is not None and now - since > FULL_SECONDS and self.serving.is_served
        if is_full:
            self.serving.retries.full_since = None
        return is_full

    # The answers and the notes

    def pass_on(self, text: str, take: Action) -> None:
        """Takes a host's answer: it may be known once its record counts."""
        if self.replica is not None:
            self.replica.answers.add(text, take)

    def notes(self) -> Notes:
        assert self.replica is not None
        return self.replica.journals.notes

    def noted(self) -> None:
        if self.replica is not None:
            self.replica.noted()

    def when_noted(self, action: Action) -> None:
        if self.replica is not None:
            self.replica.when_noted(action)

    # What becomes of the host

    def host_is_ready(self) -> None:
        if self.replica is not None and self.serving.hosting.is_running:
            self.replica.host_loaded()

    def host_is_idle(self) -> None:
        """A node's host goes on without requests."""

    def host_ended(self) -> None:
        if self.replica is not None:
            self.replica.host_ended()
        self.failed_starts = 0 if self.serving.hosting.is_loaded else self.failed_starts + 1
        if self.failed_starts >= FAILED_STARTS:
            self.failed_starts = 0
            fault = TransientFault("no host loads the journals: another machine may serve the partition")
            self.loop.add_callback_threadsafe(lambda: self.guard.fail(fault))

    def give_up(self, status: int) -> None:
        """The host ended with a status with which a new one would end too, or its journals can't be seen."""
        if status == Status.PASSES:
            self.guard.fail(TransientFault(meaning_of(status)))
        else:
            self.guard.fail(Refusal(f"the host ended with {int(status)}: {meaning_of(status)}"))

    def why_no_order(self) -> str:
        if self.serving.is_served:
            return ""
        self.consumer.wake()
        machine = self.served_by()
        if machine:
            here = self.machine
            return f"{machine} serves the partition, and {here} doesn't: order at {machine}, or here in a moment"
        return f"{self.machine} doesn't serve the partition, and knows of no machine that does: order again in a moment"

    def served_by(self) -> str:
        """Returns the machine of the last barrier that counts; nothing if it is this one, or none is known."""
        found = "" if self.replica is None else self.replica.rule.barrier.machine
        return "" if found == self.machine else found
