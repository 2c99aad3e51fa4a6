"""Events and actions of a rule as lines: what the program that decides reads and writes.

    position NUMBER NAME MACHINE    the barrier that counts; `position 0` if none does
    machine NAME                    the machine's own name
    count SHARD NUMBER              how many records of a shard count, for each shard that has some
    has SHARD INDEX RECORD, told, connected WORD, lost, called NAME, loaded, ended, again
    answered NUMBER, or answered NUMBER SHARD INDEX
    message LINES                   and so many lines: the text of a message, without its MAC

Each line but `message` with its text is a turn. It is answered by any number of lines, and by one that is a dot:

    put SHARD INDEX RECORD, cut SHARD LENGTH, ready, begin, end, reply NUMBER, stop WHY
    publish LINES                   and so many lines: the text of a message
    position NUMBER NAME MACHINE    this barrier counts now
    count SHARD NUMBER              so many records of a shard count now
"""
from typing import Union

from issuer_host.replication.messages import Barrier, LOGS, NO_BARRIER, Record
from issuer_host.replication.rule_events import (
    Action,
    Again,
    Answered,
    AppendRecord,
    BarrierCounts,
    Begin,
    Beginning,
    Called,
    Connected,
    End,
    Event,
    Has,
    HostEnded,
    HostLoaded,
    Lost,
    MessageRead,
    Ready,
    RecordsCount,
    Reply,
    Stop,
    Told,
    TruncateJournal,
)

TURN_END = "."
# Events and actions that are a word alone.
PLAIN_EVENTS: "dict[str, Event]" = {
    "told": Told(),
    "lost": Lost(),
    "loaded": HostLoaded(),
    "ended": HostEnded(),
    "again": Again(),
}
# Actions of a shard and a number.
OF_SHARDS: "dict[str, type[Union[TruncateJournal, RecordsCount]]]" = {"cut": TruncateJournal, "count": RecordsCount}
PLAIN_ACTIONS: "dict[str, Action]" = {"ready": Ready(), "begin": Begin(), "end": End()}


def lines_of_beginning(beginning: Beginning) -> "list[str]":
    """Returns the lines that a rule begins with."""
    barrier = beginning.barrier
    position = "position 0" if barrier == NO_BARRIER else line_of_barrier(barrier)
    counts = [f"count {shard} {count}" for shard, count in enumerate(beginning.counts) if count]
    return [position, f"machine {beginning.machine}", *counts]


def line_of_barrier(barrier: Barrier) -> str:
    return f"position {barrier.number} {barrier.name} {barrier.machine}"


def lines_of_event(event: Event) -> "list[str]":
    """Returns the lines of an event."""
    if isinstance(event, Has):
        return [f"has {event.record.shard} {event.record.place} {event.record.text}"]
    if isinstance(event, Connected):
        return [f"connected {event.word}"]
    if isinstance(event, Called):
        return [f"called {event.name}"]
    if isinstance(event, MessageRead):
        text = lines_of_text(event.text)
        return [f"message {len(text)}", *text]
    if isinstance(event, Answered):
        place = f" {event.place[0]} {event.place[1]}" if event.place else ""
        return [f"answered {event.number}{place}"]
    return [next(word for word, plain in PLAIN_EVENTS.items() if plain == event and type(plain) is type(event))]


def lines_of_text(text: str) -> "list[str]":
    """Returns the lines of a text. One whose last line isn't ended is no message, as "", and has none."""
    *lines, rest = text.split("\n")
    return [] if rest else lines


def action_of(line: str) -> Action:
    """Returns the action of a line. A line that is none of one line is a ValueError or a KeyError."""
    word, _, rest = line.partition(" ")
    if word == "put":
        shard, place, text = rest.split(" ", 2)
        return AppendRecord(Record(shard_of(shard), number_of(place), text))
    if word == "position":
        number, name, machine = rest.split(" ")
        return BarrierCounts(Barrier(number_of(number), name, machine))
    if word in OF_SHARDS:
        shard, length = rest.split(" ")
        return OF_SHARDS[word](shard_of(shard), number_of(length))
    if word == "reply":
        return Reply(number_of(rest))
    if word == "stop":
        return Stop(rest)
    return PLAIN_ACTIONS[word]


def shard_of(word: str) -> int:
    shard = number_of(word)
    if shard >= LOGS:
        raise ValueError(f"no shard is {word}")
    return shard


def number_of(word: str) -> int:
    if not word.isdecimal():
        raise ValueError(f"no number is {word!r}")
    return int(word)
