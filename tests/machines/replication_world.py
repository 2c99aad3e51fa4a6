"""A world in which bridges on several machines share a stream: each thing that can happen in it is a step.

The broker takes what each bridge wrote in that bridge's order, at any time, loses it, or takes it twice. It calls a
bridge while another still believes that it is the active one. A bridge reads as late as it likes. A machine is killed,
and begins again from its journals and a place in the stream that it kept some time before. A stranger, who reads the
stream and has no key of the cluster, writes to it. The stream may lose its end, with all machines killed.
"""
import collections
import functools
import itertools
from collections.abc import Callable, Hashable, Iterator
from typing import NamedTuple, Optional, Protocol

from issuer_host.replication.message_mac import MessageMacs
from issuer_host.facts.refusal import Refusal
from issuer_host.replication.messages import Barrier, LOGS, MessageFault, Record
from issuer_host.replication.own_records import OwnRecords
from issuer_host.replication.rule_events import Beginning, PartitionRule
from issuer_host.replication.rule_turns import Answer as HostAnswer, RuleTurns
from machines.bridge_model import BridgeModel
from machines.message_texts import Message, Records, parse, text_of
from machines.rule_model import Answer, Count

COUNTERS = ("7", "8", "9")
KEY = bytes(range(32))
STREAM, OTHER_STREAM = "issuer.requests.0.records", "issuer.requests.1.records"


class Body(NamedTuple):
    """A message as it is in the stream."""

    content: bytes
    has_headers: bool = False


class Opener(Protocol):
    """What signs and opens the messages of the stream."""

    def signed(self, text: str) -> bytes:
        """Returns the body of a message."""

    def read(self, body: bytes, has_headers: bool) -> str:
        """Returns the text of a message that a node wrote. Any other is a MessageFault."""


# A stranger writes bodies of these kinds.
FORGERIES = ("text", "barrier", "records", "header", "moved", "again")


class WorldRule(PartitionRule, Protocol):
    """A rule of which a world can be told from another one."""

    def state(self) -> Hashable:
        """Returns what a later step depends on, and the journals and the position don't say."""


class Broken(Exception):
    """A promise is broken."""


class LostEnd(Exception):
    """A machine stops: by its journals the stream lost its end."""


class Step(NamedTuple):
    """What happens next: by its name, on which machine, and to which counter of a card."""

    name: str
    machine: int
    counter: str = ""


class Kept(NamedTuple):
    """What a machine keeps of its place in the stream."""

    position: int
    barrier: Barrier
    records: tuple[int, ...]
    own: Optional[tuple[int, ...]]
    # Of each shard: whether a host may have recorded beyond what counts.
    served: tuple[bool, ...]


class Log:
    """A shard's journal, as it is asked for what may be a host's."""

    def __init__(self, number: int, count: int, length: int) -> None:
        self.number, self.count, self.length = number, count, length
        self.path = f"journal {number}"

    def total(self) -> int:
        return self.length


class Node:
    """A machine: its journals, its rule, and what the rule had written that the broker hasn't taken.

    `RuleTurns` is that of `deploy/node`. This is what it stands on: journals in memory, and a host that loads at once.
    """

    turns: RuleTurns
    rule: "WorldRule"

    def __init__(self, world: "World", number: int) -> None:
        self.world = world
        self.number = number
        self.held: list[list[Record]] = [[] for _ in range(world.shards)]
        self.written: collections.deque[Body] = collections.deque()
        self.position = 0
        # What counts up to there, by the rule in words.
        self.count = Count()
        # And how many records of each shard do, by what the rule has said.
        self.said = [0] * LOGS
        self.served = (False,) * world.shards
        self.kept = Kept(0, self.count.barrier, tuple(self.count.records), tuple(self.count.records), self.served)
        self.own = world.own(None)
        self.names = 0
        self.is_in_line = self.has_host = self.is_serving = False
        self.begin_again()

    def begin_again(self) -> None:
        """The machine is killed, and begins from its journals and the place that it kept."""
        self.has_host = self.is_in_line = self.is_serving = False
        self.position = self.kept.position
        self.count = Count(self.kept.barrier, self.kept.records)
        self.said = list(self.kept.records)
        self.own, self.served = self.world.own(self.kept.own), self.kept.served
        self.own.opened(self.logs())
        beginning = Beginning(f"m{self.number}", self.kept.barrier, self.kept.records)
        self.rule = self.world.new_rule(beginning)
        self.turns = self.world.turns(self.rule, beginning, self, self, self.new_name)
        self.turns.begin()
        self.turns.connected()

    # What the rule has done outside

    def publish(self, text: str) -> None:
        self.written.append(self.world.signed(parse(text)))

    def ready(self) -> None:
        self.stops_at(lambda: self.own.refuse_rest(self.logs()))
        self.is_in_line, self.is_serving = True, False

    def begin_host(self) -> None:
        """Starts the host, which loads the journals at once. What is kept says before that it may record."""
        self.own.host_begins()
        self.served = (True,) * self.world.shards
        self.kept = self.kept._replace(own=self.own.at(self.kept.records), served=self.served)
        self.has_host = self.is_serving = True
        self.turns.host_loaded()

    def end_host(self) -> None:
        self.has_host = self.is_serving = False
        self.own.host_ended(self.logs())

    def reply(self, answer: Answer) -> None:
        if not self.has_host:
            raise Broken(f"answer {answer} is sent, of a host that is gone")
        self.world.replied(answer)

    # Its journals

    def length(self, shard: int) -> int:
        return len(self.held[shard]) if shard < self.world.shards else 0

    def record(self, shard: int, place: int) -> Record:
        return self.held[shard][place]

    def put(self, record: Record) -> None:
        if self.has_host:
            raise Broken("a record is put into journals that a host has open")
        if record.place != len(self.held[record.shard]):
            raise Broken(f"record {record.place} of shard {record.shard} is put behind {len(self.held[record.shard])}")
        if any(other.text.split(":")[0] == record.text.split(":")[0] for other in self.held[record.shard]):
            raise Broken(f"a second record for one counter is put: {record}")
        self.held[record.shard].append(record)

    def truncate(self, shard: int, length: int) -> None:
        if self.has_host:
            raise Broken("journals are truncated that a host has open")
        self.stops_at(lambda: self.own.refuse_cut(self.logs()[shard], length))
        del self.held[shard][length:]
        self.own.was_cut(self.logs()[shard])

    def logs(self) -> list[Log]:
        counts = enumerate(self.said[: self.world.shards])
        return [Log(shard, count, len(self.held[shard])) for shard, count in counts]

    def stops_at(self, look: Callable[[], None]) -> None:
        """Takes a look at the journals that a machine stops by. None does while the stream has all that it had."""
        try:
            look()
        except Refusal as refusal:
            raise (LostEnd if self.world.has_lost else Broken)(str(refusal)) from refusal

    def count_to(self, shard: int, number: int) -> None:
        """The rule says what counts: as the rule in words has it, each change once, and what the journal has."""
        is_right = self.said[shard] < number == self.count.records[shard]
        self.said[shard] = number
        if not is_right or number > len(self.held[shard]):
            raise Broken(f"the rule says that {number} count of shard {shard}, where {self.count.records} do")

    # What happens to it

    def read(self, *answers: Answer) -> None:
        """Reads the stream's next message. One that no node wrote isn't told. Answers are told in the same turn."""
        message = self.world.opened(self.world.stream[self.position])
        self.position += 1
        if message is not None:
            self.count.take(message)
            self.turns.read(text_of(message), *map(self.as_told, answers))
            said = self.turns.barrier, self.said
            if said != (self.count.barrier, self.count.records):
                raise Broken(f"the rule says that {said} count, where {self.count.barrier}, {self.count.records} do")

    def keep(self) -> None:
        counts = tuple(self.count.records)
        beyond = [len(records) > count for records, count in zip(self.held, counts)]
        self.served = tuple(self.has_host or has and more for has, more in zip(self.served, beyond))
        self.kept = Kept(self.position, self.count.barrier, counts, self.own.at(counts), self.served)

    def new_name(self) -> str:
        self.names += 1
        return f"m{self.number}.{self.names}"

    def call(self) -> None:
        self.is_in_line = False
        self.turns.called()

    def ask(self, counter: str) -> None:
        """Puts a request of a card's counter to the host: it has one record for it, whoever asks."""
        self.answer(self.decided(counter))

    def decided(self, counter: str) -> Answer:
        record = self.find(counter) or self.decide(counter)
        return Answer(counter, record.text, (record.shard, record.place))

    def ask_and_read(self, counter: str) -> None:
        """The same, and its answer is told with the records that the stream brings."""
        self.read(self.decided(counter))

    def has_records_to_read(self) -> bool:
        """Whether the stream's next message has records."""
        following = self.world.stream[self.position :][:1]
        return isinstance(self.world.opened(following[0]) if following else None, Records)

    def answer(self, answer: Answer) -> None:
        self.turns.recorded(self.as_told(answer))

    def as_told(self, answer: Answer) -> HostAnswer:
        return functools.partial(self.reply, answer), answer.place

    def find(self, counter: str) -> Optional[Record]:
        of_counter = (record for records in self.held for record in records if record.text.startswith(f"{counter}:"))
        return next(of_counter, None)

    def decide(self, counter: str) -> Record:
        shard = COUNTERS.index(counter) % self.world.shards
        record = Record(shard, len(self.held[shard]), f"{counter}:{self.new_name()}")
        self.held[shard].append(record)
        return record

    def crash(self, counter: str) -> None:
        """The host records its decision of a request, dies before it answers, and another begins."""
        if self.find(counter) is None:
            self.decide(counter)
        self.turns.host_ended()
        self.turns.host_loaded()

    def ask_of_none(self) -> None:
        """Puts a request whose answer names no record, and says all the same what the host has."""
        told = " ".join(record.text for records in self.held for record in records)
        self.answer(Answer("", told))

    def lose_connection(self) -> None:
        self.is_in_line = False
        self.turns.disconnected()
        self.turns.connected()

    def state(self) -> Hashable:
        """Returns all that a later step depends on."""
        replies = self.turns.waiting.items()
        answers = tuple((number, getattr(reply, "args")) for number, reply in replies)
        journals = tuple(tuple(records) for records in self.held)
        ends = None if self.own.ends is None else tuple(self.own.ends)
        here = self.position, self.kept, ends, self.is_in_line, self.has_host
        told = self.turns.state, self.turns.barrier, tuple(self.turns.known), answers, self.rule.state()
        return (journals, tuple(self.written), *here, *told)


class World:
    """Machines that share a stream, and the replies that they sent."""

    def __init__(
        self,
        new_rule: "Callable[[Beginning], WorldRule]" = BridgeModel,
        machines: int = 2,
        shards: int = 1,
        macs: Opener = MessageMacs(STREAM, [KEY]),
        turns: type[RuleTurns] = RuleTurns,
        own: type[OwnRecords] = OwnRecords,
    ) -> None:
        self.new_rule, self.turns, self.own = new_rule, turns, own
        self.shards = shards
        self.macs = macs
        self.stream: list[Body] = []
        # Whether it lost its end, and the machines that do nothing since.
        self.has_lost = False
        self.away: set[int] = set()
        self.replies: dict[str, str] = {}
        # Reads each message as the broker takes it.
        self.truth = Count()
        self.history: list[list[Record]] = [[] for _ in range(shards)]
        self.nodes = [Node(self, number) for number in range(machines)]

    def replied(self, answer: Answer) -> None:
        """Holds a reply that is sent to what counts."""
        if answer.place is None:
            known = {record.text for records in self.history for record in records}
            if not set(answer.text.split()) <= known:
                raise Broken(f"an answer stands on records that don't count: {answer.text}")
            return
        if self.replies.setdefault(str(answer.request), answer.text) != answer.text:
            raise Broken(f"two replies for counter {answer.request}")
        shard, place = answer.place
        if [record.text for record in self.history[shard][place : place + 1]] != [answer.text]:
            raise Broken(f"a reply of {answer.text}, which doesn't count")

    def signed(self, message: Message) -> Body:
        return Body(self.macs.signed(text_of(message)))

    def opened(self, body: Body) -> Optional[Message]:
        """Returns what a message says, or None if it counts nowhere."""
        try:
            return parse(self.macs.read(body.content, body.has_headers))
        except MessageFault:
            return None

    def take(self, node: Node) -> None:
        """The broker takes a message."""
        self.append(node.written.popleft())

    def append(self, body: Body) -> None:
        """The stream's next message."""
        self.stream.append(body)
        message = self.opened(body)
        for record in self.truth.take(message) if message else ():
            if record.place != len(self.history[record.shard]):
                raise Broken(f"{record} counts behind {len(self.history[record.shard])} records")
            self.history[record.shard].append(record)

    def lose_end(self, length: int) -> None:
        """All machines are killed, and the stream has so many messages when they begin again."""
        bodies, self.stream, self.has_lost = self.stream[:length], [], True
        self.truth, self.history = Count(), [[] for _ in range(self.shards)]
        for body in bodies:
            self.append(body)
        for node in self.nodes:
            node.written.clear()

    def take_twice(self, node: Node) -> None:
        """The broker takes a message, and will take it once more."""
        body = node.written[0]
        self.take(node)
        node.written.append(body)

    def forge(self, kind: str) -> None:
        """A stranger writes a message. What counts stays as it is."""
        before = self.truth.barrier, list(self.truth.records)
        self.append(self.forged(kind))
        if (self.truth.barrier, self.truth.records) != before:
            raise Broken(f"a message of a stranger counts: {self.stream[-1]}")

    def forged(self, kind: str) -> Body:
        """Returns what would count next if a node had written it, or what a node wrote before."""
        if kind == "text":
            return Body(b"this is no message\n")
        if kind == "again":
            return self.stream[len(self.stream) // 2] if self.stream else Body(b"")
        barrier = Barrier(self.truth.barrier.number + 1, "stranger", "m9")
        record = Record(0, self.truth.records[0], "7:stranger")
        message: Message = Records(self.truth.barrier.name or "none", 1, (record,)) if kind == "records" else barrier
        if kind == "header":
            return Body(MessageMacs(STREAM, [KEY]).signed(text_of(message)), True)
        if kind == "moved":
            return Body(MessageMacs(OTHER_STREAM, [KEY]).signed(text_of(message)))
        return Body(MessageMacs(STREAM, [bytes(32)]).signed(text_of(message)))

    def steps(self) -> Iterator[Step]:
        """What can happen next, but for machines and connections that are lost."""
        for number, node in enumerate(self.nodes):
            if node.position < len(self.stream):
                yield Step("read", number)
            if node.written:
                yield Step("take", number)
            if node.is_in_line:
                yield Step("call", number)
            if node.is_serving:
                yield Step("ask", number, COUNTERS[0])
            if node.is_serving and node.has_records_to_read():
                yield Step("ask_and_read", number, COUNTERS[0])

    def do(self, step: Step) -> None:
        node = self.nodes[step.machine]
        calls: dict[str, Callable[[], None]] = {
            "read": node.read,
            "take": lambda: self.take(node),
            "take_twice": lambda: self.take_twice(node),
            "lose": node.written.clear,
            "call": node.call,
            "ask": lambda: node.ask(step.counter),
            "ask_and_read": lambda: node.ask_and_read(step.counter),
            "ask_of_none": node.ask_of_none,
            "crash": lambda: node.crash(step.counter or COUNTERS[0]),
            "keep": node.keep,
            "write_again": node.turns.write_again,
            "kill": node.begin_again,
            "disconnect": node.lose_connection,
            "forge": lambda: self.forge(step.counter),
        }
        calls[step.name]()
        self.check()

    def check(self) -> None:
        """Each machine's journals begin with what counts of what it has read."""
        for node, shard in itertools.product(self.nodes, range(self.shards)):
            if node.number not in self.away:
                count = node.count.records[shard]
                if node.held[shard][:count] != self.history[shard][:count]:
                    raise Broken(f"the journal of machine {node.number} isn't the history that it has read")

    def settle(self) -> None:
        """Everything arrives, and all machines read it all."""
        while any(node.written or node.position < len(self.stream) for node in self.nodes):
            for number, node in enumerate(self.nodes):
                if node.written:
                    self.do(Step("take", number))
                if node.position < len(self.stream):
                    self.do(Step("read", number))
