"""Turns clearing files of ISO 8583 into the lines that `clear` takes, and its verdicts back to their records.

usage: clearing-lines lines --dialect DIALECT --records rdw|vbs [--blocked] FILE > LINES
       clearing-lines verdicts --dialect DIALECT --records rdw|vbs [--blocked] FILE VERDICTS .. > REPORT

FILE has a record a message, with its length before it: a record descriptor word (`rdw`: two bytes, which count
themselves, and two zeros), or four binary bytes (`vbs`). With --blocked it has blocks of 1014 bytes, of which two fill
the end. DIALECT is the name of a shipped dialect or a file; its frame length and network messages count for nothing.

`lines` prints a line for each presentment with chip data, in the order of the file, and on the error output each record
that gives none though it should, with its number and its offset. `verdicts` prints a JSON object a record, in the order
of the file: number, offset, type, masked PAN, amounts, acquirer's reference, and the verdict, or why there is none.
VERDICTS are what `clear` printed of the lines, in their order; several if the lines were cut.

The status is 0; 10 if a record is bad or the file ends within one; 64 for other words; 11 if the verdicts aren't those
of the file.
"""

import argparse
import datetime
import json
import sys
from collections.abc import Iterator, Sequence
from typing import BinaryIO, NamedTuple, NoReturn, Optional, TextIO

from issuer_host.clearing.presentments import Presented, presented
from issuer_host.clearing.records import BadFile, FileRecord, RDW, VBS, records_of
from issuer_host.facts.masks import masked
from issuer_host.facts.statuses import Status
from issuer_host.gateway.dialect_file import BadDialect, named, read_dialect
from issuer_host.gateway.message import Codec
from issuer_host.gateway.options import DIALECTS

NAME = "clearing-lines"
# Lines of `clear` that are no verdicts on lines of its file.
OF_RUN = ("open ", "total ", "stop ")


class BadWords(Exception):
    """Words that don't fit, and what to do."""


class Input(NamedTuple):
    """A clearing file, and how it is read."""

    file: BinaryIO
    codec: Codec
    records: str
    is_blocked: bool

    def presentments(self) -> "Iterator[tuple[FileRecord, Presented]]":
        today = datetime.date.today()
        for record in records_of(self.file, self.records, self.is_blocked):
            yield record, presented(self.codec, record.data, today)


def main(words: Sequence[str]) -> int:
    if list(words) in (["--help"], ["-h"]):
        print(__doc__, end="")
        return Status.OK
    try:
        options = parser().parse_args(words)
        codec = Codec(read_dialect(named(options.dialect, DIALECTS)))
    except (BadWords, BadDialect) as wrong:
        say(str(wrong))
        return Status.USAGE
    try:
        with open(options.file, "rb") as file:
            source = Input(file, codec, options.records, options.blocked)
            return lines(source) if options.what == "lines" else verdicts(source, options.verdicts)
    except OSError as fault:
        say(f"{fault.filename or options.file}: {fault.strerror or fault}")
        return Status.UNREADABLE


def parser() -> argparse.ArgumentParser:
    found = argparse.ArgumentParser(usage=__doc__, add_help=False)
    found.add_argument("what", choices=("lines", "verdicts"))
    found.add_argument("--dialect", required=True)
    found.add_argument("--records", required=True, choices=(RDW, VBS))
    found.add_argument("--blocked", action="store_true")
    found.add_argument("file")
    found.add_argument("verdicts", nargs="*")
    found.error = refuse  # type: ignore[assignment]
    return found


def refuse(message: str) -> NoReturn:
    raise BadWords(message)


def say(text: str) -> None:
    print(f"{NAME}: {text}", file=sys.stderr)


def lines(source: Input) -> int:
    """Prints the lines of a file."""
    records = given = bad = 0
    status = Status.OK
    try:
        for record, found in source.presentments():
            records += 1
            if found.line:
                given += 1
                print(found.line)
            elif found.is_bad:
                bad += 1
                say(f"record {record.number}, at offset {record.offset}: {found.why}")
    except BadFile as fault:
        say(str(fault))
        status = Status.BAD_DATA
    say(f"{records} records: {given} lines, {bad} bad, {records - given - bad} without chip data or no presentments")
    return Status.BAD_DATA if bad else status


def verdict_lines(paths: Sequence[str]) -> Iterator[str]:
    """The verdicts of files, one after another, without what speaks of a run as a whole."""
    for path in paths:
        with open(path, encoding="ascii") as text:
            yield from (line.rstrip("\n") for line in text if not line.startswith(OF_RUN))


def verdicts(source: Input, paths: Sequence[str]) -> int:
    """Prints each record with its verdict."""
    found_verdicts = verdict_lines(paths)
    status = Status.OK
    try:
        for record, found in source.presentments():
            verdict = next(found_verdicts, None) if found.line else None
            if found.line and verdict is None:
                say(f"record {record.number}, at offset {record.offset}: the verdicts end before it")
                return Status.BAD_FEED
            show(record, found, verdict, sys.stdout)
            status = Status.BAD_DATA if found.is_bad else status
    except BadFile as fault:
        say(str(fault))
        return Status.BAD_DATA
    more = sum(1 for _ in found_verdicts)
    if more:
        say(f"{more} verdicts more than the file has lines: they are of another file")
        return Status.BAD_FEED
    return status


def show(record: FileRecord, found: Presented, verdict: Optional[str], to: TextIO) -> None:
    said: "dict[str, object]" = {"record": record.number, "offset": record.offset, "type": found.kind}
    if found.pan:
        said["pan"] = masked(found.pan)
    if found.amount:
        said["amount"] = found.amount
    if found.certified and found.amount[-12:] != found.certified:
        said["certified amount"] = found.certified
    if found.reference:
        said["reference"] = found.reference
    if verdict is not None:
        said["verdict"] = verdict
    else:
        said["no verdict"] = found.why
    print(json.dumps(said), file=to)
