"""Why a program stopped early, in words: by its status and the numbers of its last line, `stop STATUS ..`."""
import os
from collections.abc import Sequence
from typing import NamedTuple, Optional

from issuer_host.configuration.command import read_report
from issuer_host.facts.commands import COMMANDS, CONFIG, JOURNAL, value_of
from issuer_host.facts.journals import journal_path, old_journal_path
from issuer_host.facts.statuses import MEANINGS, Status
from issuer_host.launcher.closed_journals import why_closed
from issuer_host.launcher.messages import complain, tell

# The members of a configuration, by the part that the last line names.
MEMBERS = {2: "shards", 3: "keys", 4: "cards", 5: "table"}
# What a command left in the journals before it stopped.
LEFT = {"serve": "what was answered is in the journals", "standby": "what was taken is in the journals"}
# So many faults of a configuration are printed behind a status 2.
MOST_FAULTS = 20
# The word of a last line about an old journal.
OLD = "old"
OF_OLD_JOURNAL = (
    "is {config} the configuration of these journals? Under it line {second} of shard {first}'s old journal {old} is"
    " no record, or none that may come there"
)


class LastLine(NamedTuple):
    """A last line `stop STATUS ..`: its numbers from the status on, and whether they are of an old journal."""

    numbers: list[int]
    is_old: bool

    @property
    def status(self) -> int:
        return self.numbers[0]


def last_line(words: Sequence[str]) -> Optional[LastLine]:
    """Returns what the words of a last line say; None if it is no such line."""
    numbers = [word for word in words[1:] if word != OLD]
    if words[:1] != ["stop"] or not numbers or not all(word.isdecimal() for word in numbers):
        return None
    return LastLine([int(word) for word in numbers], OLD in words)


def cause_of(words: Sequence[str], line: LastLine) -> Optional[str]:
    """Says why a program with these words stopped; None if its last line isn't known."""
    try:
        row = MEANINGS[Status(line.status)]
    except ValueError:
        return None
    if not row.cause or len(line.numbers) <= row.numbers:
        return None
    said = OF_OLD_JOURNAL if line.is_old and line.status == Status.JOURNAL_WRONG else row.cause
    if line.status == Status.UNREADABLE:
        said = of_unreadable(words)
    context = context_of(words, line)
    if line.status == Status.JOURNAL_CLOSED:
        seen = why_closed(str(context["old"]), False) or why_closed(str(context["new"]), True)
        if seen:
            return f"shard {context['first']}: {seen}"
    return said.format_map(context)


def of_unreadable(words: Sequence[str]) -> str:
    """Says which file can't be opened, or that a read failed."""
    lines = COMMANDS[words[0]].lines if words[0] in COMMANDS else None
    if not os.access(value_of(CONFIG, words), os.R_OK):
        return "the configuration {config} can't be read"
    if lines and value_of(lines.option, words) and not os.access(value_of(lines.option, words), os.R_OK):
        return "the {kind} {lines} can't be read"
    return MEANINGS[Status.UNREADABLE].cause + (" or of {lines}" if lines else "")


def context_of(words: Sequence[str], line: LastLine) -> dict[str, object]:
    """Returns what the names in a cause stand for."""
    command = COMMANDS.get(words[0])
    lines = command.lines if command else None
    first, second = (*line.numbers[1:3], 0, 0)[:2]
    journal = value_of(JOURNAL, words)
    return {
        "config": value_of(CONFIG, words),
        "lines": value_of(lines.option, words) if lines else "",
        "kind": lines.kind if lines else "",
        "first": first,
        "second": second,
        "old": old_journal_path(journal, first),
        "new": journal_path(journal, first),
        "done": "read, written" if words[0] == "standby" else "read",
        "part": place_in_configuration(first, second),
    }


def place_in_configuration(part: int, index: int) -> str:
    """Names a place in the configuration, by the numbers of a last line."""
    if part not in MEMBERS:
        return "it is no JSON object, or it is too long"
    if index == 0:
        return f"its member `{MEMBERS[part]}` is missing, of another kind, or of a wrong length"
    return f"element {index} of its member `{MEMBERS[part]}` breaks a rule, or repeats an earlier one"


def explained(words: Sequence[str], status: int, last: Sequence[str], took_all: bool) -> int:
    """Says in words why a program stopped early, and returns its status."""
    if not took_all:
        status = Status.OUTPUT
    if status == Status.OUTPUT:
        left = LEFT.get(words[0])
        tell(MEANINGS[Status.OUTPUT].cause + (f"; {left}" if left else ""))
    elif status > 128:
        tell(f"the program was stopped by signal {status - 128}")
    elif status:
        line = last_line(last)
        tell((line and cause_of(words, line)) or f"the program ended with status {status}")
    if status == Status.CONFIGURATION:
        for fault in faults_of(value_of(CONFIG, words)):
            complain(fault)
    return status


def faults_of(path: str) -> list[str]:
    """Returns a line for each fault of a configuration; none if the file can be read only once."""
    if not os.path.isfile(path):
        return []
    try:
        faults = read_report(path).faults
    except OSError:
        return []
    more = len(faults) - MOST_FAULTS
    return faults[:MOST_FAULTS] + ([f"and {more} more: ./issuer check --config {path} has all"] if more > 0 else [])
