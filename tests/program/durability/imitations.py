"""Programs that reach their files wrongly, imitated: the check that a mutant names has to refuse what the mutant does.

The library tells the program that a call was made which wasn't, or that one succeeded which failed. So the program does
what one with a wrong body would, and nothing has to be built. It shows that a check can fail; a mutant that is built
shows it of the body itself (tests/mutants). What a mutant does between two calls of the C library can't be imitated,
and one whose run hangs isn't.
"""
import copy
from collections.abc import Iterable, Sequence
from typing import NamedTuple

import checks

from program.durability import faults, kills, ordering, page
from program.durability.tally import Check, Tally, check_of
from program.durability.watching import FOLDER, INPUT, JOURNAL, OUTPUT, Lie


class Imitation(NamedTuple):
    """A mutant by its name, and what the program is told wrongly."""

    mutant: str
    lies: Sequence[Lie]


IMITATIONS = (
    Imitation("sync_does_nothing", [Lie("unmade", "fsync", JOURNAL)]),
    Imitation("truncation_is_not_synced", [Lie("unmade", "fsync", JOURNAL, after="ftruncate")]),
    Imitation("failed_sync_is_a_success", [Lie("forgiven", "fsync", JOURNAL)]),
    Imitation("end_is_not_rewritten", [Lie("unmade", "pwrite", JOURNAL, after="pread")]),
    Imitation("journal_is_not_synced_when_opened", [Lie("unmade", "fsync", JOURNAL, after="flock")]),
    Imitation("directory_is_not_synced", [Lie("unmade", "fsync", FOLDER)]),
    Imitation("directory_is_synced_before_the_last_file", [Lie("unmade", "fsync", FOLDER, first=2)]),
    Imitation("journal_is_not_locked", [Lie("unmade", "flock", JOURNAL)]),
    Imitation("failed_read_is_an_end", [Lie("forgiven", "read", INPUT)]),
    Imitation("short_write_is_taken_for_whole", [Lie("whole", "pwrite", JOURNAL)]),
    Imitation("interrupted_call_is_a_fault", [Lie("hard", "pwrite", JOURNAL)]),
    Imitation("full_output_ends_a_run", [Lie("hard", "write", OUTPUT)]),
)


class Refused(Exception):
    """A comparison failed."""


class Refusing(checks.Tally):
    """Ends a check at its first comparison that fails."""

    def fail(self, what: str, *more: str) -> None:
        raise Refused(what)


def wrong_ways_are_refused(tally: Tally) -> None:
    """Each way to reach files wrongly that can be imitated is refused by the check that its mutant names."""
    named = page.tests_of_mutants()
    # (it is compiled once, for all copies)
    assert tally.watch.library
    for imitation in IMITATIONS:
        check = check_named(named.get(imitation.mutant, ""), (*ordering.CHECKS, *faults.CHECKS, *kills.CHECKS))
        what = refusal_of(tally, check, imitation.lies)
        tally.holds(bool(what), f"{check.name} takes a program that does as {imitation.mutant}")
    tally.note(f"{len(IMITATIONS)} of {len(named)} mutants")


def check_named(name: str, known: Iterable[Check]) -> Check:
    return next(check for check in known if check.name == name)


def refusal_of(tally: Tally, check: Check, lies: Sequence[Lie]) -> str:
    """What a check says of a program that is told wrongly, or "" if it takes it."""
    watch = copy.copy(tally.watch)
    watch.lies = lies
    try:
        check.body(Tally(Refusing(watch.program), watch, is_short=True))
    except Refused as refused:
        return str(refused)
    return ""


CHECKS: tuple[Check, ...] = (check_of(wrong_ways_are_refused),)
