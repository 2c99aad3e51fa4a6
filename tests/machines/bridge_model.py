"""The model of the rule (`rule_model.Bridge`) behind the events and actions of `rule_events`, as the program is."""
import collections
import contextlib
from collections.abc import Hashable, Sequence

from issuer_host.replication.messages import MessageFault, Record
from issuer_host.replication.rule_events import (
    Action,
    Again,
    Answered,
    Begin,
    Beginning,
    Called,
    Connected,
    TruncateJournal,
    MessageRead,
    End,
    HostEnded,
    Event,
    Has,
    HostLoaded,
    Lost,
    Publish,
    AppendRecord,
    BarrierCounts,
    DIVERGED,
    Ready,
    RecordsCount,
    Reply,
    Stop,
    Told,
)
from machines.message_texts import Message, parse, text_of
from machines.rule_model import Answer, Bridge, Count, Diverged


class KnownJournals:
    """What a rule knows of its machine's journals, and what it has done to them: the bridge's `Journals`."""

    def __init__(self, counts: Sequence[int], actions: "list[Action]") -> None:
        self.actions = actions
        # Of each shard's journal: how many records were counted, and those that are known beyond.
        self.counts = list(counts)
        self.beyond: dict[int, collections.deque[str]] = {}
        # The shards of which more records count than was said.
        self.grown: set[int] = set()

    def learn(self, record: Record) -> None:
        """Takes the next record of a journal that isn't known."""
        length = self.length(record.shard)
        if record.place != length:
            raise ValueError(f"record {record.place} of shard {record.shard} is told after {length}")
        self.beyond.setdefault(record.shard, collections.deque()).append(record.text)

    def forget(self) -> None:
        """What is beyond isn't known."""
        self.beyond.clear()

    def length(self, shard: int) -> int:
        return self.counts[shard] + len(self.beyond.get(shard, ()))

    def record(self, shard: int, place: int) -> Record:
        return Record(shard, place, self.beyond[shard][place - self.counts[shard]])

    def put(self, record: Record) -> None:
        self.actions.append(AppendRecord(record))

    def truncate(self, shard: int, length: int) -> None:
        self.actions.append(TruncateJournal(shard, length))
        while self.length(shard) > length:
            self.beyond[shard].pop()

    def counted(self, record: Record) -> None:
        self.counts[record.shard] += 1
        self.grown.add(record.shard)
        if self.beyond.get(record.shard):
            self.beyond[record.shard].popleft()

    def say_counts(self) -> None:
        """Says what counts now and wasn't said."""
        self.actions += [RecordsCount(shard, self.counts[shard]) for shard in sorted(self.grown)]
        self.grown.clear()


class BridgeModel:
    """A bridge behind events and actions. It is its `BridgeActions`."""

    def __init__(self, beginning: Beginning, bridge: type[Bridge] = Bridge, count: type[Count] = Count) -> None:
        self.actions: list[Action] = []
        self.journals = KnownJournals(beginning.counts, self.actions)
        self.bridge = bridge(beginning.machine, count(beginning.barrier, beginning.counts), self.journals, self)
        # What the journals have, and was told since the last `Told`; whether the journals' rest was told.
        self.new: list[Record] = []
        self.is_told = False
        # Whether it says `Ready` once it was.
        self.is_ready = False
        # The barrier of which it was said that it counts.
        self.barrier = beginning.barrier
        # The name that an event brought.
        self.name = ""

    def take(self, *events: Event) -> Sequence[Action]:
        """Takes what happened, in this order. Returns what is to be done, in this order."""
        done: list[Action] = []
        for event in events:
            self.actions.clear()
            try:
                self.handle(event)
            except Diverged:
                return [*done, Stop(DIVERGED)]
            done += self.actions
        return done

    def look(self) -> None:
        pass

    def end(self) -> None:
        pass

    def state(self) -> Hashable:
        """Returns what a later step depends on, and the journals and the position don't say."""
        bridge = self.bridge
        return bridge.state, bridge.barrier, tuple(bridge.held), self.is_told, self.is_ready

    def handle(self, event: Event) -> None:
        if isinstance(event, Has):
            self.journals.learn(event.record)
            self.new.append(event.record)
        elif isinstance(event, Told):
            self.told()
        elif isinstance(event, Connected):
            self.name = event.word
            self.bridge.connected()
        elif isinstance(event, Called):
            self.name = event.name
            self.bridge.called()
        elif isinstance(event, MessageRead):
            self.read(event.text)
        elif isinstance(event, Answered):
            self.bridge.answered(Answer(event.number, "", event.place))
        else:
            self.handle_plain(event)

    def handle_plain(self, event: Event) -> None:
        if isinstance(event, HostLoaded):
            self.new.clear()
            self.bridge.host_loaded()
        elif isinstance(event, HostEnded):
            self.bridge.host_ended()
        elif isinstance(event, Lost):
            self.bridge.disconnected()
            self.is_ready = False
        elif isinstance(event, Again):
            self.bridge.write_again()

    def told(self) -> None:
        self.is_told = True
        if self.is_ready:
            self.ready()
        new, self.new = self.new, []
        self.bridge.recorded(new)

    def read(self, text: str) -> None:
        """Reads a message. A text that is none counts nowhere."""
        if not self.is_told:
            raise ValueError("a message is read before the journals' rest is told")
        with contextlib.suppress(MessageFault):
            self.bridge.read(parse(text))
        self.say_counts()

    def say_counts(self) -> None:
        """Says what counts now and wasn't said."""
        if self.bridge.count.barrier != self.barrier:
            self.barrier = self.bridge.count.barrier
            self.actions.append(BarrierCounts(self.barrier))
        self.journals.say_counts()

    # What the bridge does outside

    def publish(self, message: Message) -> None:
        self.actions.append(Publish(text_of(message)))

    def new_name(self) -> str:
        return self.name

    def ready(self) -> None:
        """No bridge is called before it knows its journals."""
        self.say_counts()
        self.is_ready = not self.is_told
        if self.is_told:
            self.actions.append(Ready())

    def begin_host(self) -> None:
        """The host's records are told once it has loaded them."""
        self.say_counts()
        self.actions.append(Begin())
        self.journals.forget()

    def end_host(self) -> None:
        self.say_counts()
        self.actions.append(End())
        self.is_told = False

    def reply(self, answer: Answer) -> None:
        assert isinstance(answer.request, int)
        self.say_counts()
        self.actions.append(Reply(answer.request))
