"""Somebody without the cluster's key writes to a stream what would count if a node had written it."""
import uuid
from collections.abc import Iterator, Sequence
from typing import NamedTuple, Optional

import pika

from issuer_host.broker import topology
from issuer_host.replication.message_mac import MessageMacs
from issuer_host.replication.messages import Barrier, Mark, NOTES, Record
from machines.message_texts import Message, Records, text_of
from trials.machines.history import Reader, last_barrier, next_record

# A status that no row of the table names, and the greatest number that a barrier can have.
STATUS, GREATEST = 3, 10**18 - 1
# No key of a cluster.
OTHER_KEY = bytes(32)


class Forgery(NamedTuple):
    """A message as it is written: its body, and headers if it has some."""

    body: bytes
    headers: Optional[dict[str, object]] = None


def forgeries(messages: Sequence[Message], macs: MessageMacs, others: MessageMacs) -> Iterator[Forgery]:
    """What a stranger writes after these messages. `others` signs the messages of another partition's stream.

    (The broker takes no longer message than these.)
    """
    last = last_barrier(messages)
    name = f"stranger.{uuid.uuid4().hex}"
    wrong_key = MessageMacs(macs.stream, [OTHER_KEY])
    yield from map(Forgery, (b"", b"this is no message", "mark é\n".encode(), b"mark x\n" * 9_000))
    for number in (last.number + 1, GREATEST):
        text = text_of(Barrier(number, name, "m0"))
        yield Forgery(text.encode())
        yield from (Forgery(one.signed(text)) for one in (wrong_key, others))
        yield Forgery(macs.signed(text), {"x-forged": 1})
    record = next_record(messages, STATUS)
    for forged in (record, Record(NOTES, 0, '{"number":"n/1","answer":""}'), Record(15, 0, "s 1")):
        text = text_of(Records(last.name, 1, (forged,)))
        yield from (Forgery(text.encode()), Forgery(wrong_key.signed(text)), Forgery(others.signed(text)))


def write_forgeries(file: str, macs: MessageMacs, others: MessageMacs) -> None:
    """Writes them, and reads that what was written after them is there."""
    reader = Reader(file, macs)
    messages = reader.read()
    reader.close()
    reader = Reader(file, macs)
    for body, headers in forgeries(messages, macs, others):
        reader.writing.basic_publish(topology.RECORDS, macs.stream, body, pika.BasicProperties(headers=headers))
    end = Mark(f"stranger.{uuid.uuid4().hex}")
    reader.write(end)
    found = reader.read()
    reader.close()
    if end not in found:
        raise RuntimeError("what was written isn't there")
