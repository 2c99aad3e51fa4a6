"""A replica of a partition: this machine's journals, the stream and the rule, from one position on.

It does what `rule_turns.RuleOutside` asks for. A partition that begins again has a new replica.
"""
from typing import Any, Protocol

from issuer_host.host.command import INPUT, StartOptions, command_of
from issuer_host.host.event_loop import Action, Loop
from issuer_host.replication import positions
from issuer_host.replication.journal_files import JournalFiles
from issuer_host.replication.message_mac import MessageMacs
from issuer_host.replication.messages import NOTES
from issuer_host.replication.node_file import NodeSettings, PartitionSettings
from issuer_host.replication.node_stops import StepGuard
from issuer_host.replication.position_keeper import PositionKeeper
from issuer_host.replication.positions import Position
from issuer_host.replication.recorded_answers import RecordedAnswers
from issuer_host.replication.rule_choice import rule_path
from issuer_host.replication.rule_events import Beginning, State
from issuer_host.replication.rule_program import RuleProgram
from issuer_host.replication.rule_turns import Answer, RuleTurns
from issuer_host.replication.standby_run import StandbyRun
from issuer_host.replication.state_teller import ReplicaState
from issuer_host.replication.stream import Place as StreamPlace, Stream
from issuer_host.replication.stream_reader import StreamReader
from issuer_host.start.careful_start import NODE
from issuer_host.start.held_configuration import shards_of


class ReplicaOwner(Protocol):
    """The partition that has a replica."""

    def caught_up(self) -> None:
        """All that the stream had was read, or another machine serves: this one stands in the queue's line."""

    def start_host(self) -> None:
        """This machine's barrier counts, and the position says so: its host may start."""

    def end_host(self) -> None:
        """This machine serves no longer. When this returns its host has ended, and nobody is answered."""

    def tell_state(self, why: str = "") -> None:
        """Something changed, or goes wrong."""

    def passed_over(self, stream: str, offset: int, why: str) -> None:
        """A message of the stream is none that a node wrote."""


class Replica:
    """The journals, the stream and the rule of a partition, joined."""

    def __init__(
        self,
        loop: Loop,
        guard: StepGuard,
        node: NodeSettings,
        settings: PartitionSettings,
        macs: MessageMacs,
        writer: positions.Keeper,
        owner: ReplicaOwner,
    ) -> None:
        self.guard, self.owner = guard, owner
        self.is_ended = False
        found = positions.read(settings.journal, node.machine)
        self.journals = journals_of(loop, guard, node, settings, found)
        place = StreamPlace(found.offset, found.digest)
        self.stream = Stream(loop, macs, place, lambda: self.reader.call(), owner.tell_state)
        beginning = Beginning(node.machine, found.barrier, found.counts)
        self.rule = RuleTurns(RuleProgram([rule_path(node)], beginning), beginning, self.journals, self)
        self.reader = StreamReader(loop, guard, self.stream, self.journals, self.rule, self)
        self.answers = RecordedAnswers(loop, guard, self.journals, self.rule, self.reader)
        self.positions = PositionKeeper(writer, settings.journal, self.journals, found, self)
        self.rule.begin()

    # The connection and the queue

    def connected(self, connection: Any) -> None:
        self.reader.open(connection)
        self.rule.connected()

    def disconnected(self) -> None:
        self.stream.lost()
        self.rule.disconnected()

    def answered(self) -> "list[Answer]":
        """Returns what the host has answered, whose records were read."""
        return self.answers.taken()

    def was_read(self) -> None:
        """The rule has taken a message."""
        self.answers.pass_soon()
        self.owner.tell_state()

    def passed_over(self, offset: int, why: str) -> None:
        """A message is none that a node wrote."""
        self.owner.passed_over(self.stream.name, offset, why)

    # What the rule asks

    def publish(self, text: str) -> None:
        self.reader.write(text)

    def ready(self) -> None:
        """All that the stream had was read. What this machine took of it before is among that."""
        self.journals.own.refuse_rest(self.journals.logs)
        self.owner.caught_up()

    def begin_host(self) -> None:
        self.journals.own.host_begins()
        self.journals.standby.end(lambda: self.guard.take(self.keep_barrier))

    def keep_barrier(self) -> None:
        """Has the position name the barrier, and say that a host may record, before there is one.

        So a person finds who served last, and a start knows which records may count nowhere.
        """
        barrier = self.rule.barrier

        def kept(fault: "OSError | None") -> None:
            if self.is_ended or self.rule.barrier != barrier:
                return
            if fault is not None:
                self.guard.fail(fault)
            elif self.rule.state is State.SERVING:
                self.guard.take(self.owner.start_host)

        self.positions.keep_now(kept)

    def end_host(self) -> None:
        self.answers.clear()
        self.owner.end_host()
        self.journals.standby.forget_then()
        self.journals.read_all()
        self.journals.own.host_ended(self.journals.logs)

    # The host

    def host_loaded(self) -> None:
        """A host has loaded the journals: what it may answer by and doesn't count is written."""
        self.journals.read_all()
        self.rule.host_loaded()

    def host_ended(self) -> None:
        self.answers.clear()
        self.rule.host_ended()

    def noted(self) -> None:
        """A note of work on a card was appended."""
        self.rule.recorded()

    def when_noted(self, action: Action) -> None:
        """Does something once all notes count."""
        last = self.journals.notes.length() - 1
        self.rule.recorded((action, (NOTES, last) if last >= 0 else None))

    # The position, time, and the end

    def position(self) -> Position:
        """Returns the position of what was read."""
        counts, sizes = self.journals.counts(), self.journals.sizes()
        return Position(*self.stream.signed, self.rule.barrier, counts, sizes, self.journals.own.at(counts))

    def position_failed(self, fault: OSError) -> None:
        self.owner.tell_state(f"the position can't be written: {fault.strerror}")

    def state_now(self) -> ReplicaState:
        kept, counted = self.positions.kept.offset, sum(self.rule.counts)
        is_serving = self.rule.state is State.SERVING
        return ReplicaState(self.stream.place.offset, kept, is_serving, counted, self.journals.uncounted())

    def end(self) -> None:
        """Ends what runs over the journals but for the host."""
        self.is_ended = True
        self.answers.clear()
        self.rule.end()
        self.journals.standby.kill()
        self.stream.lost()


def journals_of(
    loop: Loop, guard: StepGuard, node: NodeSettings, settings: PartitionSettings, found: Position
) -> JournalFiles:
    """Returns the journals of a partition at a position, with what there is beyond it read."""
    words = ["--feed", INPUT]
    start = StartOptions(node.program or "", NODE, settings.last_run)
    standby = command_of("standby", settings.configuration, settings.journal, *words, start=start)
    shards, name = shards_of(settings.configuration), f"node: partition {settings.number}"
    run = StandbyRun(loop, standby, settings.journal, name, guard.fail)
    journals = JournalFiles(settings.journal, shards, found, run)
    journals.open()
    return journals
