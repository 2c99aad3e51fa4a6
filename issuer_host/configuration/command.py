"""Checks a configuration before a host reads it.

usage: check --config FILE

Prints a line for each fault, with its line and column, first the one that the host names in `stop 2 PART INDEX`; then a
line for each thing that a host accepts and a person hardly meant. No line has a key, and PANs are masked. The status is
0 if a host accepts the configuration, 1 for other words, 2 if a host refuses it, and 3 if the file can't be read.
"""
import sys
from collections.abc import Sequence

from issuer_host.configuration.report import Report, report_of
from issuer_host.facts.limits import MAX_CONFIGURATION_BYTES
from issuer_host.facts.statuses import Status

CONFIG = "--config"


def read_report(path: str) -> Report:
    """Reports on the configuration of a file. Raises OSError if it can't be read."""
    with open(path, "rb") as file:
        return report_of(path, file.read(MAX_CONFIGURATION_BYTES + 1))


def counted(number: int, noun: str) -> str:
    return f"{number or 'no'} {noun}{'' if number == 1 else 's'}"


def summary(path: str, report: Report) -> str:
    """Says in a line what the host will do."""
    counts = f"{path}: {counted(len(report.faults), 'fault')}, {counted(len(report.cautions), 'warning')}"
    if report.place is None:
        return f"{counts}; a host accepts it"
    return f"{counts}; a host stops with `stop 2 {report.place[0]} {report.place[1]}`"


def main(words: Sequence[str]) -> int:
    if list(words) in (["--help"], ["-h"]):
        print(__doc__)
        return Status.OK
    if len(words) != 2 or words[0] != CONFIG:
        print(f"check: write `check {CONFIG} FILE`", file=sys.stderr)
        return Status.WORDS
    path = words[1]
    try:
        report = read_report(path)
    except OSError as fault:
        print(f"check: {path} can't be read: {fault.strerror}", file=sys.stderr)
        return Status.UNREADABLE
    print(*report.lines, summary(path, report), sep="\n")
    return Status.OK if report.place is None else Status.CONFIGURATION
