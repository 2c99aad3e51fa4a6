"""The messages of a partition's stream, written and parsed: what the model of the rule and the trials read a stream by.

    barrier NUMBER NAME MACHINE     a bridge becomes the active one: records of this NAME count from here on
    records NAME SEQUENCE           and feed lines, SHARD PLACE RECORD: what the host of that bridge recorded
    mark WORD                       nothing; who wrote it knows how far it has read

A sequence only tells messages apart. A text of another form counts nowhere. The program that decides has a parser of
its own, which is proved: this one is written apart from it.
"""
import re
from typing import NamedTuple, Union

from issuer_host.replication import messages
from issuer_host.replication.message_mac import MessageMacs
from issuer_host.replication.messages import Barrier, LOGS, Mark, MessageFault, NAME, Record, SHOWN

NUMBER = re.compile(r"0|[1-9][0-9]{0,17}")
# How many records one message has at most: the longest ones too are within what a broker takes of a message.
MAX_RECORDS = 100
# How many characters a record has at most: those of a journal and the notes have 500.
MAX_TEXT = 1_024


class Records(NamedTuple):
    """Records of the bridge whose barrier has this name."""

    name: str
    sequence: int
    records: tuple[Record, ...]


Message = Union[Barrier, Records, Mark]


def text_of(message: Message) -> str:
    """Returns a message as it stands in the stream."""
    if isinstance(message, Barrier):
        return f"barrier {message.number} {message.name} {message.machine}\n"
    if isinstance(message, Mark):
        return messages.text_of(message)
    lines = (f"{record.shard} {record.place} {record.text}\n" for record in message.records)
    return f"records {message.name} {message.sequence}\n" + "".join(lines)


def message_of(macs: MessageMacs, body: bytes, has_headers: bool = False) -> Message:
    """Returns what a node wrote. A message that counts nowhere is a MessageFault, which says why."""
    return parse(macs.read(body, has_headers))


def parse(text: str) -> Message:
    """Returns the message of a text. Raises MessageFault if it is none."""
    if not text.endswith("\n"):
        raise MessageFault("its last line isn't ended")
    head, *lines = text.split("\n")[:-1]
    kind, *words = head.split(" ")
    if len(lines) > MAX_RECORDS:
        raise MessageFault(f"it has {len(lines)} records, and {MAX_RECORDS} are the most")
    if kind == "records" and len(words) == 2:
        return Records(name_of(words[0]), number_of(words[1]), tuple(map(record_of, lines)))
    if lines:
        raise MessageFault(f"lines follow {head[:SHOWN]!r}")
    if kind == "barrier" and len(words) == 3:
        return Barrier(number_of(words[0]), name_of(words[1]), name_of(words[2]))
    if kind == "mark" and len(words) == 1:
        return Mark(name_of(words[0]))
    raise MessageFault(f"no message begins with {head[:SHOWN]!r}")


def record_of(line: str) -> Record:
    """Returns the record of a feed line. Raises MessageFault if it is none."""
    shard, _, rest = line.partition(" ")
    place, _, text = rest.partition(" ")
    if not text or number_of(shard) >= LOGS:
        raise MessageFault(f"no feed line is {line[:SHOWN]!r}")
    if len(text) > MAX_TEXT:
        raise MessageFault(f"a record has {len(text)} characters, and {MAX_TEXT} are the most")
    return Record(number_of(shard), number_of(place), text)


def name_of(word: str) -> str:
    if not NAME.fullmatch(word):
        raise MessageFault(f"no name is {word[:SHOWN]!r}")
    return word


def number_of(word: str) -> int:
    if not NUMBER.fullmatch(word):
        raise MessageFault(f"no number is {word[:SHOWN]!r}")
    return int(word)
