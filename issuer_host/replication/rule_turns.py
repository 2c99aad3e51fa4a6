"""The turns of a partition's rule: it is told what happens, and what it says is carried out in its order.

The rule decides. This keeps what follows from what it said: in which state the partition is, which barrier counts, how
many records of each journal the rule knows, and which answers wait.
"""
import collections
import uuid
from collections.abc import Callable, Iterator, Sequence
from typing import Optional, Protocol

from issuer_host.host.event_loop import Action as Callback
from issuer_host.replication.messages import LOGS, Place, Record
from issuer_host.replication.record_origins import RefusedRecord
from issuer_host.replication.rule_events import (
    Action,
    Again,
    Answered,
    AppendRecord,
    BarrierCounts,
    Begin,
    Beginning,
    Called,
    Connected,
    DIVERGED,
    End,
    Event,
    Has,
    HostEnded,
    HostLoaded,
    Lost,
    MessageRead,
    PartitionRule,
    Publish,
    Ready,
    RecordsCount,
    Reply,
    State,
    Stop,
    Told,
    TruncateJournal,
)
from issuer_host.replication.standby_run import TransientFault

# An answer of the host: what sends its reply, and the place of the record that it names, if it names one.
Answer = tuple[Callback, Optional[Place]]


class RuleJournals(Protocol):
    """The journals of a machine. No host has them open when records are appended to them or cut off."""

    def length(self, shard: int) -> int:
        """Returns how many records a shard has."""

    def record(self, shard: int, place: int) -> Record:
        """Returns a record beyond those that count."""

    def put(self, record: Record) -> None:
        """Appends a record that counts, checked as a standby checks it."""

    def truncate(self, shard: int, length: int) -> None:
        """Cuts a shard's records off beyond so many."""

    def count_to(self, shard: int, number: int) -> None:
        """So many records of a shard count."""


class RuleOutside(Protocol):
    """What a rule has done outside of the journals."""

    def publish(self, text: str) -> None:
        """Writes a message to the stream. It may come late, twice, or never."""

    def ready(self) -> None:
        """The bridge has read what there was: it may stand in the line of the queue's consumers."""

    def begin_host(self) -> None:
        """Starts the host over the journals, and says when it has loaded them. Requests may be put to it then."""

    def end_host(self) -> None:
        """Kills the host, and reads the journals to their ends. Its requests go back to the queue."""


def new_name() -> str:
    """Returns a name that nothing had before."""
    return uuid.uuid4().hex


class RuleTurns:
    """A partition's rule, asked."""

    def __init__(
        self,
        rule: PartitionRule,
        beginning: Beginning,
        journals: RuleJournals,
        outside: RuleOutside,
        names: Callable[[], str] = new_name,
    ) -> None:
        self.rule, self.journals, self.outside, self.names = rule, journals, outside, names
        self.state = State.AWAY
        # The last barrier that counts.
        self.barrier = beginning.barrier
        # How many records of each shard count, and how many the rule knows.
        self.counts = list(beginning.counts)
        self.known = list(beginning.counts)
        # By its number an answer that waits: what sends its reply.
        self.waiting: "dict[int, Callback]" = {}
        self.answers = 0
        # What the rule is told next, and whether it is being told.
        self.events: "collections.deque[Event]" = collections.deque()
        self.is_telling = False

    # What happens

    def begin(self) -> None:
        """Tells what the journals have beyond the position."""
        self.tell(*self.news(), Told())

    def connected(self) -> None:
        self.state = State.READING
        self.tell(Connected(self.names()))

    def disconnected(self) -> None:
        """The connection is lost. What was read stays counted, and is read on from there."""
        self.tell(Lost())
        self.state = State.AWAY

    def called(self) -> None:
        """The queue delivers here from now on."""
        if self.state is State.WAITING:
            self.state = State.BEGINNING
            self.tell(Called(self.names()))

    def read(self, text: str, *answers: Answer) -> None:
        """Takes the stream's next message that a node wrote, and what the host has recorded and answered by now.

        A barrier comes alone: at the turn after it the host may be gone.
        """
        self.tell(MessageRead(text), *(self.recordings(answers) if answers else ()))

    def host_loaded(self) -> None:
        """A host has loaded the journals, which were read to their ends, and has no line yet."""
        if self.state is State.SERVING:
            self.tell(*self.news(), HostLoaded())

    def host_ended(self) -> None:
        """The host has ended by itself: what it answered and nobody knows is asked of the next one."""
        if self.state is State.SERVING:
            self.waiting.clear()
            self.tell(HostEnded())

    def recorded(self, *answers: Answer) -> None:
        """The host has recorded what was read of its journals, and answered: each waits until its record counts."""
        self.tell(*self.recordings(answers))

    def write_again(self) -> None:
        """What was written doesn't come back."""
        self.tell(Again())

    def look(self) -> None:
        """Finds out whether the rule can go on."""
        self.rule.look()

    def end(self) -> None:
        """The rule is asked nothing more."""
        self.events.clear()
        self.waiting.clear()
        self.rule.end()

    # What is told and carried out

    def recordings(self, answers: "Sequence[Answer]") -> "Iterator[Event]":
        """What the host has recorded that the rule doesn't know, and its answers."""
        if self.state is not State.SERVING:
            return
        news = list(self.news())
        if news:
            yield from (*news, Told())
        for reply, place in answers:
            self.answers += 1
            self.waiting[self.answers] = reply
            yield Answered(self.answers, place)

    def news(self) -> "Iterator[Event]":
        """What the journals have beyond what the rule knows."""
        for shard in range(LOGS):
            first, self.known[shard] = self.known[shard], max(self.known[shard], self.journals.length(shard))
            for place in range(first, self.known[shard]):
                yield Has(self.journals.record(shard, place))

    def tell(self, *events: Event) -> None:
        """Tells events, and carries out what the rule says. What comes of that is told then."""
        self.events.extend(events)
        if self.is_telling:
            return
        self.is_telling = True
        try:
            while self.events:
                told = tuple(self.events)
                self.events.clear()
                for action in self.rule.take(*told):
                    self.carry_out(action)
        finally:
            self.is_telling = False

    def carry_out(self, action: Action) -> None:
        if isinstance(action, AppendRecord):
            self.journals.put(action.record)
            self.known[action.record.shard] = action.record.place + 1
        elif isinstance(action, TruncateJournal):
            self.journals.truncate(action.shard, action.length)
            self.known[action.shard] = action.length
        elif isinstance(action, RecordsCount):
            self.journals.count_to(action.shard, action.number)
            self.counts[action.shard] = action.number
        elif isinstance(action, BarrierCounts):
            self.barrier = action.barrier
        elif isinstance(action, Publish):
            self.outside.publish(action.text)
        elif isinstance(action, Reply):
            self.reply(action.number)
        elif isinstance(action, Stop):
            raise fault_of(action.why)
        else:
            self.change(action)

    def reply(self, number: int) -> None:
        reply = self.waiting.pop(number, None)
        if reply is None:
            raise TransientFault(f"the rule has answer {number} sent, for which nobody waits")
        reply()

    def change(self, action: Action) -> None:
        """Does what changes the partition's state."""
        if isinstance(action, Ready):
            self.state = State.WAITING
            self.outside.ready()
        elif isinstance(action, Begin):
            self.state = State.SERVING
            self.known = list(self.counts)
            self.outside.begin_host()
        elif isinstance(action, End):
            self.state = State.AWAY
            self.waiting.clear()
            self.outside.end_host()
            self.events.extendleft(reversed([*self.news(), Told()]))


def fault_of(why: str) -> Exception:
    """Returns why a partition stops: for good, or until its rule begins again."""
    if why == DIVERGED:
        return RefusedRecord("its own host didn't record it, and served")
    return TransientFault(f"the rule stops: {why}")
