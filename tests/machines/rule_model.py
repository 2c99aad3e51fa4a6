"""A model of the rule by which the messages of a partition's stream make its history, and by which a bridge answers.

The program that decides (`bridge_main`) is compared with it, event by event. It was written before that program and
apart from it, and no node runs it.

It knows neither broker nor files: `BridgeActions` are what a bridge does, and `Journals` are those of its machine.

The stream is the one order in which all machines see a partition's messages.

- A message that no node wrote counts nowhere (`message_mac`): whoever reads it goes on as if it weren't there.
- A barrier counts if its number is that of the last one that counts, plus one.
- A record counts if its name is that of the last barrier that counts, and its place is its shard's number of records
  that count.

So whoever reads from the same message with the same count comes to the same history. Records of a bridge that is no
longer the active one count nowhere. To write a message twice does no harm.

A bridge answers by what counts alone:

- It serves once its own barrier counts, and no longer than until another's counts. Then its host is killed, and no
  answer of it is sent any more.
- An answer waits until the record that it names counts, and behind all answers before it. One that names no record may
  stand on those before it.
- A record that counts is compared with the journal's at its place. If they differ, the journal is truncated there
  before the record is taken: no reply of what goes was sent.
- Records of its own beyond what counts are written under its new barrier before its host gets a line, and the host's
  answers wait for them: they may stand on them. So it is with each host that begins while the bridge serves.
"""
import collections
from collections.abc import Iterator
from typing import NamedTuple, Optional, Protocol

from issuer_host.replication.messages import Barrier, LOGS, Mark, NO_BARRIER, Place, Record
from issuer_host.replication.rule_events import State
from machines.message_texts import MAX_RECORDS, Message, Records


class Diverged(Exception):
    """A record counts that the host which serves didn't record: who has the cluster's key wrote it."""


class Count:
    """What counts in a stream up to a message: the last barrier, and how many records of each shard."""

    __slots__ = ("barrier", "records")

    def __init__(self, barrier: Barrier = NO_BARRIER, records: tuple[int, ...] = (0,) * LOGS) -> None:
        self.barrier = barrier
        self.records = list(records)

    def take(self, message: Message) -> list[Record]:
        """Takes the stream's next message, and returns those of its records that count."""
        if isinstance(message, Barrier) and message.number == self.barrier.number + 1:
            self.barrier = message
        if not isinstance(message, Records) or message.name != self.barrier.name:
            return []
        return [record for record in message.records if self.takes(record)]

    def takes(self, record: Record) -> bool:
        """Counts a record of the active bridge if it is its shard's next one."""
        is_next = record.place == self.records[record.shard]
        self.records[record.shard] += is_next
        return is_next

    def has(self, shard: int, place: int) -> bool:
        return place < self.records[shard]


class Answer(NamedTuple):
    """A host's answer to a request: the place of the record that it names, if any."""

    request: object
    text: str
    place: Optional[Place] = None


class Journals(Protocol):
    """The journals of a machine. No host has them open when records are put into them or cut off."""

    def length(self, shard: int) -> int:
        """Returns how many records a shard has."""

    def record(self, shard: int, place: int) -> Record:
        """Returns a record by its place."""

    def put(self, record: Record) -> None:
        """Appends a record that counts, checked as a standby checks it."""

    def truncate(self, shard: int, length: int) -> None:
        """Cuts a shard's records off beyond so many."""

    def counted(self, record: Record) -> None:
        """A record that the journals have counts: the next one of its shard."""


class BridgeActions(Protocol):
    """What a bridge does outside."""

    def publish(self, message: Message) -> None:
        """Writes a message to the stream. It may come late, twice, or never."""

    def new_name(self) -> str:
        """Returns a name for a barrier that none had before."""

    def ready(self) -> None:
        """The bridge has read what there was: it may stand in the line of the queue's consumers."""

    def begin_host(self) -> None:
        """Starts the host over the journals, and says when it has loaded them. Requests may be put to it then."""

    def end_host(self) -> None:
        """Kills the host, if it runs, and gives the requests that aren't answered back to the queue."""

    def reply(self, answer: Answer) -> None:
        """Sends an answer's reply, or puts the line to the host that waited for that answer."""


class Held(NamedTuple):
    """The place of a record that has to count, if any, and the answer that is sent then, if any."""

    place: Optional[Place]
    answer: Optional[Answer]


class Bridge:
    """A partition's bridge on one machine."""

    __slots__ = (
        *("machine", "count", "journals", "outside", "state", "word", "barrier", "held", "sequence"),
        "is_releasing",
    )

    def __init__(self, machine: str, count: Count, journals: Journals, outside: BridgeActions) -> None:
        self.machine = machine
        self.count = count
        self.journals = journals
        self.outside = outside
        self.state = State.AWAY
        # The word of the mark that it reads up to, and its own barrier.
        self.word = ""
        self.barrier = NO_BARRIER
        self.held: collections.deque[Held] = collections.deque()
        self.sequence = 0
        self.is_releasing = False

    def connected(self) -> None:
        """The stream can be read and written: all that stands there is read before anything else."""
        self.state = State.READING
        self.word = self.outside.new_name()
        self.outside.publish(Mark(self.word))

    def disconnected(self) -> None:
        """The connection is lost. What was read stays counted, and is read on from there."""
        self.stop()
        self.state = State.AWAY

    def stop(self) -> None:
        """Ends the host, and forgets its answers: who asked asks again."""
        if self.state is State.SERVING:
            self.outside.end_host()
        self.held.clear()

    def called(self) -> None:
        """The queue delivers here from now on."""
        if self.state is State.WAITING:
            self.state = State.BEGINNING
            self.write_barrier()

    def write_barrier(self) -> None:
        self.barrier = Barrier(self.count.barrier.number + 1, self.outside.new_name(), self.machine)
        self.outside.publish(self.barrier)

    def read(self, message: Message) -> None:
        """Takes the stream's next message."""
        last = self.count.barrier
        for record in self.count.take(message):
            self.settle(record)
        if self.count.barrier != last:
            self.barrier_counts()
        if isinstance(message, Mark) and message.word == self.word and self.state is State.READING:
            self.state = State.WAITING
            self.outside.ready()
        self.release()

    def settle(self, record: Record) -> None:
        """Has the journal hold a record that counts."""
        is_there = record.place < self.journals.length(record.shard)
        if not is_there or self.journals.record(record.shard, record.place) != record:
            self.replace(record, is_there)
        self.journals.counted(record)

    def replace(self, record: Record, is_other_there: bool) -> None:
        """Appends a record that counts, and cuts off before what its journal has at its place."""
        if self.state is State.SERVING:
            raise Diverged(f"shard {record.shard}, record {record.place}, isn't what its host recorded")
        if is_other_there:
            self.journals.truncate(record.shard, record.place)
        self.journals.put(record)

    def barrier_counts(self) -> None:
        """A barrier counts: the one that it waits for, so that it serves, or another, so that it no longer does."""
        is_active = self.state in (State.BEGINNING, State.SERVING)
        if is_active and self.count.barrier == self.barrier:
            self.begin()
        elif is_active:
            self.stop()
            self.state = State.WAITING
            self.outside.ready()

    def begin(self) -> None:
        """Begins to serve."""
        self.state = State.SERVING
        self.outside.begin_host()

    def host_loaded(self) -> None:
        """A host has loaded the journals, and has no line yet: it may answer by records that don't count.

        They are written, and no answer goes before they count.
        """
        if self.state is State.SERVING:
            self.held.extend(Held(place, None) for place in self.last_uncounted())
            self.write_again()

    def host_ended(self) -> None:
        """The host has ended by itself: what it answered and nobody knows is asked of the next one."""
        self.held.clear()

    def last_uncounted(self) -> Iterator[Place]:
        """The place of the last record of each journal that has some beyond those that count."""
        for shard, count in enumerate(self.count.records):
            length = self.journals.length(shard)
            if length > count:
                yield shard, length - 1

    def uncounted(self) -> Iterator[Record]:
        """The records of the journals beyond those that count."""
        for shard, last in self.last_uncounted():
            for place in range(self.count.records[shard], last + 1):
                yield self.journals.record(shard, place)

    def write_again(self) -> None:
        """Writes what didn't come back: a stream may lose a message without a word."""
        if self.state is State.READING:
            self.outside.publish(Mark(self.word))
        if self.state is State.BEGINNING:
            self.outside.publish(self.barrier)
        if self.state is State.SERVING:
            self.recorded(list(self.uncounted()))

    def recorded(self, records: list[Record]) -> None:
        """The host has recorded: the next records of its journals, each shard's in their order."""
        if self.state is not State.SERVING:
            return
        for first in range(0, len(records), MAX_RECORDS):
            self.sequence += 1
            message = Records(self.barrier.name, self.sequence, tuple(records[first : first + MAX_RECORDS]))
            self.outside.publish(message)

    def answered(self, answer: Answer) -> None:
        """The host has answered a line: its next answer, in its order. Its records were written before."""
        if self.state is State.SERVING:
            self.held.append(Held(answer.place, answer))
            self.release()

    def release(self) -> None:
        """Sends the answers at the front whose records count. (What is sent may have the host answer more.)"""
        if self.is_releasing:
            return
        self.is_releasing = True
        try:
            while self.held and self.may_go(self.held[0].place):
                answer = self.held.popleft().answer
                if answer is not None:
                    self.outside.reply(answer)
        finally:
            self.is_releasing = False

    def may_go(self, place: Optional[Place]) -> bool:
        return place is None or self.count.has(*place)
