"""A partition's stream, read whole by the rule alone, and the journals of all machines beside it."""
import contextlib
import os
import time
import uuid
from collections.abc import Callable, Sequence
from typing import Any

import pika
from pika.adapters.utils.connection_workflow import AMQPConnectorException

from issuer_host.broker import topology
from issuer_host.broker.wire import decode_no_headers
from issuer_host.facts.journals import PAN_DIGITS, card_of_record, journal_path, records_of
from issuer_host.replication.message_mac import MessageMacs
from issuer_host.replication.messages import Barrier, Mark, MessageFault, NOTES, Record
from issuer_host.replication.notes import read_notes
from machines.message_texts import Message, message_of, text_of
from machines.rule_model import Count
from trials.bridges.farm import SHARDS
from trials.bridges.tally import Tally
from trials.machines.brokers import NODE, comes
from trials.machines.machines import Machines

# So many messages are on their way, and so many acknowledged together: for each acknowledgement the broker reads the
# stream's file once more.
PREFETCH, TOGETHER = 500, 100
READ_SECONDS, QUIET_SECONDS = 120.0, 2.0
SETTLE_SECONDS = 300.0
TRIES = 60
# Records that a machine may have written, and that aren't in the stream, when its power goes: what is in flight.
IN_FLIGHT = 128

# What says that a broker is away, or that it doesn't answer in time. (The last is no error of AMQP to pika.)
AWAY_FAULTS = (pika.exceptions.AMQPError, OSError, AMQPConnectorException)
History = dict[int, list[str]]


class Reader:
    """A partition's stream, from its first message on, by a connection of its own.

    A confirm says nothing, and may never come: what was written is there once it was read.
    """

    def __init__(self, file: str, macs: MessageMacs) -> None:
        decode_no_headers()
        self.macs = macs
        self.stream = macs.stream
        self.connection = pika.BlockingConnection(topology.parameters_of(file))
        self.writing: Any = self.connection.channel()

    def write(self, message: Message) -> None:
        body = self.macs.signed(text_of(message))
        self.writing.basic_publish(topology.RECORDS, self.stream, body, pika.BasicProperties(delivery_mode=2))

    def read(self) -> list[Message]:
        """Returns all messages of nodes up to a mark of its own, which is written again while it doesn't come.

        (To cancel a consumer would reject what is on its way, which streams don't bear: the connection is closed.)
        """
        mark = Mark(f"reader.{uuid.uuid4().hex}")
        found: list[Message] = []

        def take(channel: Any, method: Any, properties: Any, body: bytes) -> None:
            if method.delivery_tag % TOGETHER == 0:
                channel.basic_ack(method.delivery_tag, multiple=True)
            with contextlib.suppress(MessageFault):
                found.append(message_of(self.macs, body, properties.has_headers))

        reading: Any = self.connection.channel()
        reading.basic_qos(prefetch_count=PREFETCH)
        reading.basic_consume(self.stream, take, arguments={"x-stream-offset": "first"})
        began = written = time.monotonic()
        self.write(mark)
        while mark not in found[-PREFETCH:]:
            now = time.monotonic()
            if now - began > READ_SECONDS:
                read = f"{len(found)} messages of {self.stream} were read"
                raise RuntimeError(f"{read}, and its end isn't in {READ_SECONDS:.0f} s")
            if now - written > QUIET_SECONDS:
                self.write(mark)
                written = now
            self.connection.process_data_events(QUIET_SECONDS)
        return found[: found.index(mark)]

    def close(self) -> None:
        if self.connection.is_open:
            self.connection.close()


def messages_of(machines: Machines, partition: int) -> list[Message]:
    """Returns a stream's messages; a node that just started may say that it has no copy."""
    for attempt in range(TRIES):
        file = machines.brokers.url_file(NODE, machines.network.machines[attempt % len(machines.network.machines)])
        try:
            reader = Reader(file, machines.brokers.macs(partition))
            try:
                return reader.read()
            finally:
                reader.close()
        except AWAY_FAULTS:
            time.sleep(1.0)
    raise RuntimeError(f"the stream of partition {partition} can't be read")


def history_of(messages: Sequence[Message]) -> History:
    """Returns the records that count, by shard, and the notes of work on cards as one shard more."""
    count = Count()
    found: History = {shard: [] for shard in (*range(SHARDS), NOTES)}
    for message in messages:
        for record in count.take(message):
            found[record.shard].append(record.text)
    return found


def last_barrier(messages: Sequence[Message]) -> Barrier:
    count = Count()
    for message in messages:
        count.take(message)
    return count.barrier


def journals_of(machines: Machines, number: int, partition: int, history: History) -> History:
    """Returns what the journals and notes of a machine hold, without a torn last line.

    A file of notes may leave its first ones out: they are taken as they count.
    """
    name = machines.journal_of(machines.network.machines[number], partition)
    found = {shard: whole_lines(journal_path(name, shard)) for shard in range(SHARDS)}
    first, notes = read_notes(name)
    found[NOTES] = [*history[NOTES][:first], *notes]
    return found


def whole_lines(path: str) -> list[str]:
    """Returns a journal's records. One that nothing was written to is empty."""
    if not os.path.getsize(path):
        return []
    found = list(records_of(path))
    with open(path, "rb") as data:
        is_torn = not data.read().endswith(b"\n")
    return found[:-1] if is_torn else found


def says_nothing(_: str) -> None:
    """What a wait is for isn't told to anybody."""


def check_prefixes(tally: Tally, machines: Machines, waits: Callable[[str], object] = says_nothing) -> None:
    """Each machine's journals are prefixes of what counts, but for records that were in flight."""
    for partition in range(machines.partitions):
        waits(f"the stream of partition {partition} is read")
        history = history_of(messages_of(machines, partition))
        for number, machine in enumerate(machines.network.machines):
            for shard, lines in journals_of(machines, number, partition, history).items():
                same = common_length(lines, history[shard])
                beyond = len(lines) - same
                what = f"{machine.name}, partition {partition}, shard {shard}: {beyond} records beyond the first {same}"
                tally.check(beyond <= IN_FLIGHT, what)


def common_length(some: Sequence[str], others: Sequence[str]) -> int:
    """Returns how many lines at the front are the same."""
    for at, (one, other) in enumerate(zip(some, others)):
        if one != other:
            return at
    return min(len(some), len(others))


def check_equal(
    tally: Tally,
    machines: Machines,
    seconds: float = SETTLE_SECONDS,
    waits: Callable[[str], object] = says_nothing,
) -> None:
    """All machines' journals come to what counts, and no reader comes to another history."""
    for partition in range(machines.partitions):
        waits(f"the journals of partition {partition} are what counts, on all machines")
        history = history_of(messages_of(machines, partition))
        for number, machine in enumerate(machines.network.machines):
            is_equal = comes(lambda: journals_of(machines, number, partition, history) == history, seconds)
            tally.check(is_equal, f"the journals of {machine.name}, partition {partition}, aren't what counts")


def next_record(messages: Sequence[Message], status: int) -> Record:
    """Returns a record that may come next in the first shard: a card of it gets a status."""
    found = history_of(messages)[0]
    if not found:
        raise RuntimeError("the first shard has no record yet")
    pan, psn = card_of_record(found[-1])
    return Record(0, len(found), f"s {pan.ljust(PAN_DIGITS, 'f')} {psn} {status}")
