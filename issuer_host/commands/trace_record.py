"""The record of a decision, and which row of a table decides it."""
import glob
import json
from collections.abc import Iterator
from typing import NamedTuple, Optional

from issuer_host.configuration.decision_rows import deciding_row
from issuer_host.facts.journals import Decided, StatusSet, journal_path, record_of, records_of
from issuer_host.facts.masks import name_of_card

NUMBER = "{}"
NO_STATUS = 0


class RecordPlace(NamedTuple):
    """Where a record is."""

    partition: int
    shard: int
    position: int


class FoundRecord(NamedTuple):
    """A decision, and the status that its card had."""

    decided: Decided
    status: int


def path_of(place: RecordPlace, journal: str) -> str:
    return journal_path(journal.replace(NUMBER, str(place.partition)), place.shard)


def partitions_of(journal: str) -> list[int]:
    """The numbers of the partitions of which there is a journal."""
    if NUMBER not in journal:
        return [0]
    head, _, tail = journal.partition(NUMBER)
    names = glob.glob(f"{glob.escape(head)}[0-9]*{glob.escape(tail)}.*")
    numbers = {name[len(head) :].partition(tail or ".")[0] for name in names}
    return sorted(int(it) for it in numbers if it.isdecimal())


def record_at(place: RecordPlace, journal: str) -> Optional[FoundRecord]:
    """The decision at a place with its card's status then; None if there is no decision."""
    statuses: dict[tuple[str, str], int] = {}
    try:
        for index, line in enumerate(records_of(path_of(place, journal))):
            if index < place.position and not line.startswith("s "):
                continue
            record = record_of(line)
            if index == place.position:
                status = statuses.get(record.card, NO_STATUS)
                return FoundRecord(record, status) if isinstance(record, Decided) else None
            if isinstance(record, StatusSet):
                statuses[record.card] = record.status
    except (OSError, ValueError):
        return None
    return None


def exists(place: RecordPlace, journal: str) -> bool:
    return record_at(place, journal) is not None


def lines_about(place: RecordPlace, journal: str, config: str) -> Iterator[str]:
    """What the record says, and what the table says of it."""
    path = path_of(place, journal)
    # (the first line has the version, and the first record has the index 0)
    yield f"  record: {path}, line {place.position + 2}"
    found = record_at(place, journal)
    if found is None:
        yield "  record: there is no decision in that line: is it the journal of this log, and not an older copy?"
        return
    request = found.decided.request
    verdict = "approved" if found.decided.approves else "declined"
    yield (
        f"  recorded: {name_of_card(*found.decided.card)}, ATC {request.atc}, amount {request.amount} of currency"
        f" {request.currency}, TVR {request.tvr}, status {found.status}: {verdict} with {found.decided.code}"
    )
    if config:
        yield from table_lines(found, config.replace(NUMBER, str(place.partition)))


def table_lines(found: FoundRecord, config: str) -> Iterator[str]:
    """The row of the table that decides the recorded request, and whether it would decide otherwise."""
    try:
        with open(config, encoding="utf-8") as text:
            table = json.load(text)["table"]
        row = deciding_row(table, found.decided.request, found.status)
    except (OSError, ValueError, KeyError, TypeError) as fault:
        yield f"  table: {config} can't be read: {fault}"
        return
    if row is None:
        yield f"  table: no row of {config} fits"
        return
    does = f"row {row.number} {'approves' if row.approves else 'declines'} with {row.code}"
    is_same = (row.approves, row.code) == (found.decided.approves, found.decided.code.lower())
    yield f"  table: {does}" + ("" if is_same else ": today's table decides otherwise than the record says")
