"""The messages of a partition's stream, as far as a node knows them. `message_mac` has the line that follows each.

    barrier NUMBER NAME MACHINE     a bridge becomes the active one: records of this NAME count from here on
    records NAME SEQUENCE           and feed lines, SHARD PLACE RECORD: what the host of that bridge recorded
    mark WORD                       nothing; who wrote it knows how far it has read

The shard past the greatest one has the notes of work on cards (`notes`): they count as records do.

The program that decides parses these texts, and makes those of barriers and records (`rule_events`). A node makes marks
alone.
"""
import re
from typing import NamedTuple

from issuer_host.facts.limits import MAX_SHARDS

# A partition's records: those of its shards' journals, and the notes of work on cards as one more shard.
NOTES = MAX_SHARDS
LOGS = MAX_SHARDS + 1
NAME = re.compile(r"[0-9A-Za-z_.-]{1,64}")
MARK = "mark "
# Characters of a text that a reason has.
SHOWN = 40

# The number of a shard, and a record's place in it.
Place = tuple[int, int]


class MessageFault(Exception):
    """A text that no node wrote: it counts nowhere."""


class Record(NamedTuple):
    """A record at its place: as a feed has it."""

    shard: int
    place: int
    text: str


class Barrier(NamedTuple):
    """The bridge that becomes the active one: its number in turn, a name that none had before, and its machine."""

    number: int
    name: str
    machine: str


NO_BARRIER = Barrier(0, "", "")


class Mark(NamedTuple):
    """A word that says nothing."""

    word: str


def text_of(mark: Mark) -> str:
    """Returns a mark as it stands in the stream."""
    return f"{MARK}{mark.word}\n"


def is_mark(text: str) -> bool:
    """Whether a text that a node wrote is a mark."""
    return text.startswith(MARK)
