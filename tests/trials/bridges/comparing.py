"""Holds the answers of a trial and the journals that it left against each other."""
import collections
from collections.abc import Mapping, Sequence
from typing import NamedTuple, Optional

from issuer_host.facts.answers import reply_of
from issuer_host.facts.journals import Decided, journal_path, record_of, records_of
from issuer_host.facts.partitions import partition_configuration, partition_of
from issuer_host.facts.request_lines import pan_of_line
from issuer_host.host import offline
from trials.bridges.cards import ATC
from trials.bridges.farm import SHARDS
from trials.bridges.tally import Tally
from trials.bridges.tried import Tried


class Outcome(NamedTuple):
    """A decided request, as a record or an answer has it."""

    pan: str
    counter: int
    code: str
    approves: bool
    data: str


Records = dict[tuple[int, int], list[Optional[Outcome]]]


def counter_of(line: str) -> int:
    """Returns the ATC of a line of the trials."""
    return int(line.partition(ATC)[2][:4], 16)


def outcome_of_record(line: str) -> Optional[Outcome]:
    record = record_of(line)
    if not isinstance(record, Decided):
        return None
    return Outcome(record.request.pan, record.request.atc, record.code, record.approves, record.data)


def records_of_farm(farm: Tried) -> Records:
    """Returns the records of each journal, by partition and shard; none has a torn line once it was shown."""
    return {
        (partition, shard): [
            outcome_of_record(line) for line in records_of(journal_path(farm.journal(partition), shard))
        ]
        for partition in range(farm.partitions)
        for shard in range(SHARDS)
    }


def check_loads(tally: Tally, farm: Tried) -> None:
    """Each partition's journals load."""
    for partition in range(farm.partitions):
        config = partition_configuration(farm.configurations, partition)
        try:
            offline.show(config, farm.journal(partition), farm.program)
            tally.check(True, "")
        except offline.Failed as fault:
            tally.check(False, f"partition {partition} doesn't load: {fault}")


def check_all(tally: Tally, farm: Tried, lines: Sequence[str], answers: Mapping[str, Sequence[str]]) -> None:
    """Each request has equal replies and one record, at the place that its answers name, and no other record is."""
    check_loads(tally, farm)
    records = records_of_farm(farm)
    every = [outcome for one in records.values() for outcome in one if outcome]
    count = collections.Counter((outcome.pan, outcome.counter) for outcome in every)
    for line in lines:
        pan = pan_of_line(line)
        counter = counter_of(line)
        who = f"card {pan}, ATC {counter}"
        replies = {reply_of(answer) for answer in answers[line]}
        reply = replies.pop() if len(replies) == 1 else None
        tally.check(reply is not None, f"{who}: the answers are {answers[line]}")
        tally.check(count[pan, counter] == 1, f"{who} has {count[pan, counter]} records")
        tally.check(
            is_recorded(reply or "", pan, counter, records, farm.partitions), f"{who}: another record is at {reply!r}"
        )
    tally.check(len(every) == len(lines), f"{len(every)} records for {len(lines)} requests")


def is_recorded(reply: str, pan: str, counter: int, records: Records, partitions: int) -> bool:
    """Whether the record that a reply names is that of the request, with the reply's words."""
    words = reply.split(" ")
    if len(words) != 5:
        return False
    shard, index, approves, code, data = words
    journal = records[partition_of(pan, partitions), int(shard)]
    expected = Outcome(pan, counter, code, approves == "yes", data)
    return int(index) < len(journal) and journal[int(index)] == expected
