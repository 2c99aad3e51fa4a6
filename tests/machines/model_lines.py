"""The lines of the program that decides, from its own side: events are parsed, and actions written.

`issuer_host/replication/rule_lines.py` has the node's side. The model of the rule stands behind
these where it takes the program's place (`tests/stand_ins/rule_program`).
"""
from collections.abc import Iterator, Sequence

from issuer_host.replication.messages import Barrier, LOGS, NO_BARRIER
from issuer_host.replication.rule_events import (
    Action,
    Answered,
    AppendRecord,
    BarrierCounts,
    Beginning,
    Called,
    Connected,
    Event,
    Has,
    MessageRead,
    Publish,
    RecordsCount,
    Reply,
    Stop,
    TruncateJournal,
)
from issuer_host.replication.rule_lines import (
    PLAIN_ACTIONS,
    PLAIN_EVENTS,
    line_of_barrier,
    lines_of_text,
)
from machines.message_texts import record_of


def beginning_of(lines: Sequence[str]) -> Beginning:
    """Returns what a rule begins with, of its lines."""
    barrier, machine, counts = NO_BARRIER, "", [0] * LOGS
    for line in lines:
        word, *words = line.split(" ")
        if word == "position" and len(words) == 3:
            barrier = Barrier(int(words[0]), words[1], words[2])
        elif word == "machine":
            machine = words[0]
        elif word == "count":
            counts[int(words[0])] = int(words[1])
    return Beginning(machine, barrier, tuple(counts))


def event_of(line: str, lines: "Iterator[str]") -> Event:
    """Returns the event of a line, and of the lines after it that belong to it."""
    word, _, rest = line.partition(" ")
    if word == "has":
        return Has(record_of(rest))
    if word == "connected":
        return Connected(rest)
    if word == "called":
        return Called(rest)
    if word == "message":
        return MessageRead(text_of_lines(rest, lines))
    if word == "answered":
        number, *place = map(int, rest.split(" "))
        return Answered(number, (place[0], place[1]) if place else None)
    return PLAIN_EVENTS[word]


def text_of_lines(count: str, lines: "Iterator[str]") -> str:
    return "".join(f"{next(lines)}\n" for _ in range(int(count)))


def lines_of_action(action: Action) -> "list[str]":
    """Returns the lines of an action."""
    if isinstance(action, AppendRecord):
        return [f"put {action.record.shard} {action.record.place} {action.record.text}"]
    if isinstance(action, TruncateJournal):
        return [f"cut {action.shard} {action.length}"]
    if isinstance(action, BarrierCounts):
        return [line_of_barrier(action.barrier)]
    if isinstance(action, RecordsCount):
        return [f"count {action.shard} {action.number}"]
    if isinstance(action, Publish):
        text = lines_of_text(action.text)
        return [f"publish {len(text)}", *text]
    if isinstance(action, Reply):
        return [f"reply {action.number}"]
    if isinstance(action, Stop):
        return [f"stop {action.why}"]
    return [next(word for word, plain in PLAIN_ACTIONS.items() if type(plain) is type(action))]
