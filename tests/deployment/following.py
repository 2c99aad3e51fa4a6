"""What deploy/follow writes of journals that grow, are truncated, shortened or replaced."""
import os
import select
import signal
import subprocess
import sys
import tempfile
import time
from collections.abc import Iterator, Sequence
from contextlib import contextmanager
from typing import Callable, Optional

from checks import Tally, check_of
from issuer_host.facts.journals import VERSION_LINE, journal_path
from issuer_host.facts.paths import HOME
from issuer_host.facts.statuses import Status
from runs import PANS, content_of

RECORDS = [f"s {PANS[0]}ffff 00 {digit}\n" for digit in range(9)]
# What the journals of a trial have at first, and how many of these are durable for certain: all but each last one.
FIRST = (RECORDS[:6], RECORDS[:2])
DURABLE = (5, 1)
# So long it may take to write what it has to, and so long nothing more may come then.
SECONDS = 20.0
QUIET = 0.05
# The figures are written once a second.
FIGURES_SECONDS = 1.5


def feed(shard: int, first: int, records: Sequence[str]) -> list[str]:
    """The feed lines of a shard's records, of which the first has this index."""
    return [f"{shard} {first + at} {record}" for at, record in enumerate(records)]


class Journals:
    """The journals of two shards in a folder. The second one may come later."""

    def __init__(self, folder: str) -> None:
        self.folder = folder
        self.name = os.path.join(folder, "journal")

    def path(self, shard: int) -> str:
        return journal_path(self.name, shard)

    def append(self, text: str, shard: int = 0) -> None:
        with open(self.path(shard), "a", encoding="ascii") as to:
            to.write(text)

    def truncate(self, records: Sequence[str]) -> None:
        """Truncates the first journal to these records, which it begins with."""
        os.truncate(self.path(0), len(VERSION_LINE + "".join(records)))

    def write_first(self) -> None:
        for shard, records in enumerate(FIRST):
            self.append(VERSION_LINE + "".join(records), shard)


@contextmanager
def new_journals() -> Iterator[Journals]:
    with tempfile.TemporaryDirectory() as folder:
        yield Journals(folder)


@contextmanager
def first_journals() -> Iterator[Journals]:
    """Journals that have records already."""
    with new_journals() as journals:
        journals.write_first()
        yield journals


class Following:
    """A run of deploy/follow, what it wrote, and how it ended."""

    def __init__(self, tally: Tally, journals: Journals, *words: str) -> None:
        self.tally = tally
        tally.note_run(["deploy/follow", *words])
        command = [sys.executable, "-B", os.path.join(HOME, "deploy/follow"), "--journal", journals.name]
        self.running = subprocess.Popen(
            [*command, "--every", "0.005", *words], stdout=subprocess.PIPE, stderr=subprocess.PIPE
        )
        assert self.running.stdout is not None and self.running.stderr is not None
        self.output = self.running.stdout
        self.errors = self.running.stderr

    def comes_within(self, seconds: float) -> bool:
        return bool(select.select([self.output], [], [], seconds)[0])

    def read(self) -> str:
        return os.read(self.output.fileno(), 1 << 16).decode()

    def writes(self, what: str, *lines: str, quiet: float = QUIET) -> None:
        """It writes these lines, and no other one in the time that follows."""
        expected = "".join(lines)
        found = ""
        end = time.monotonic() + SECONDS
        while len(found) < len(expected) and time.monotonic() < end and self.comes_within(SECONDS):
            piece = self.read()
            found += piece
            if not piece:
                break
        if self.running.poll() is None and self.comes_within(quiet):
            found += self.read()
        self.tally.expect(found, expected, f"{what}: what it wrote")

    def ends(self, what: str, status: int, said: str = "") -> None:
        wrote, complained = self.running.communicate(timeout=SECONDS)
        text = complained.decode()
        self.tally.expect((self.running.returncode, wrote), (status, b""), f"{what}: its end, with {text!r}")
        self.tally.holds(said in text, f"{what}: {said!r} on the error output, which has {text!r}")

    def is_stopped(self, what: str) -> None:
        self.running.send_signal(signal.SIGTERM)
        self.ends(what, Status.OK)


def writes_a_record_once_it_is_durable(tally: Tally) -> None:
    """A record is written once more of its journal follows, which may come in any pieces."""
    with new_journals() as journals:
        follow = Following(tally, journals)
        follow.writes("no journal yet")
        for text in ("", "v", "2\n", RECORDS[0]):
            journals.append(text)
            follow.writes(f"the text ends with {text!r}: nothing is durable for certain")
        journals.append(RECORDS[1][:5])
        follow.writes("a record with a byte after it", *feed(0, 0, RECORDS[:1]))
        journals.append(RECORDS[1][5:] + RECORDS[2])
        follow.writes("a record after another one", *feed(0, 1, RECORDS[1:2]))
        journals.append(VERSION_LINE + RECORDS[0] + RECORDS[1], 1)
        follow.writes("a journal that is new", *feed(1, 0, RECORDS[:1]))
        follow.is_stopped("SIGTERM")


def follows_truncated_records(tally: Tally) -> None:
    """A record that the host truncates after a failed sync, or at the next start, isn't written."""
    with new_journals() as journals:
        journals.append(VERSION_LINE + "".join(RECORDS[:3]))
        follow = Following(tally, journals)
        follow.writes("two records, and a last one", *feed(0, 0, RECORDS[:2]))
        # A sync failed: the host truncates the record, and another one takes its place.
        journals.truncate(RECORDS[:2])
        journals.append(RECORDS[3] + RECORDS[4][:9])
        follow.writes("a record in the place of one that was truncated", *feed(0, 2, RECORDS[3:4]))
        # A kill leaves a torn line, which the next start truncates.
        journals.truncate(RECORDS[:3])
        follow.writes("a torn line that is truncated")
        journals.append(RECORDS[4] + RECORDS[5] + RECORDS[6])
        follow.writes("records after a restart", *feed(0, 3, RECORDS[4:6]))
        follow.is_stopped("SIGTERM")


def counts_what_is_unwritten(tally: Tally) -> None:
    """With --figures a file has how many bytes aren't written yet."""
    with first_journals() as journals:
        figures = f"{journals.folder}/figures"
        follow = Following(tally, journals, "--figures", figures)
        lines = [*feed(0, 0, FIRST[0][: DURABLE[0]]), *feed(1, 0, FIRST[1][: DURABLE[1]])]
        follow.writes("with figures", *lines, quiet=FIGURES_SECONDS)
        time.sleep(FIGURES_SECONDS)
        follow.is_stopped("--figures")
        behind = len(FIRST[0][-1]) + len(FIRST[1][-1])
        expected = f'issuer_follow_unwritten_bytes{{journal="{journals.name}"}} {behind}\n'
        told = content_of(figures)
        tally.holds(expected in told, f"--figures: {expected!r} in the file, which has {told!r}")


def begins_behind_counts(tally: Tally) -> None:
    """With --from it begins with the records that a standby doesn't have, in each form of the counts."""
    with first_journals() as journals:
        others = feed(1, 0, FIRST[1][:1])
        rows: list[tuple[str, list[str]]] = [("0:4", others), ("0 4\n1 1\n", []), ("1:2,0:4,", [])]
        for counts, lines in rows:
            follow = Following(tally, journals, "--from", counts)
            follow.writes(f"--from {counts!r}", *feed(0, 4, FIRST[0][4:5]), *lines)
            follow.is_stopped(f"--from {counts!r}")


def ends_after_lines(tally: Tally) -> None:
    """With --lines it ends after so many."""
    with first_journals() as journals:
        follow = Following(tally, journals, "--lines", "3")
        follow.writes("three lines", *feed(0, 0, FIRST[0][:3]))
        follow.ends("three lines", Status.OK)


def writes_what_answers_name(tally: Tally) -> None:
    """With --answers the last record of a journal is written once its answer names it, and it ends with the answers."""
    with first_journals() as journals:
        answers = f"{journals.folder}/answers"
        os.mkfifo(answers)
        follow = Following(tally, journals, "--from", "0:4,1:2", "--answers", answers)
        with open(answers, "w", encoding="ascii") as to:

            def answer(text: str) -> None:
                to.write(text)
                to.flush()

            follow.writes("answers that don't come yet", *feed(0, 4, FIRST[0][4:5]))
            answer("refused 12\nset 0 4\nset 1 5\n")
            follow.writes("after answers of records that aren't last")
            answer("kept 0 5 yes 3030 8a\nfresh 0 5")
            follow.writes("after the answer of the last record", *feed(0, 5, FIRST[0][5:6]))
            journals.append(RECORDS[7])
            answer(" yes 3030 8a\nqueued 0 6\nset 0 7\n")
            follow.writes("a record with its answer", *feed(0, 6, RECORDS[7:8]))
            journals.append(RECORDS[8])
            follow.writes("the next record, which had its answer before", *feed(0, 7, RECORDS[8:9]))
        follow.ends("the end of the answers", Status.OK)


def refuses_counts(tally: Tally) -> None:
    """Counts that aren't those of the journals, or no counts, end it with 1."""
    with first_journals() as journals:
        for counts, said in (
            ("0:9", "has 6 records, and the standby has 9"),
            ("2:1", "journal.02.v2, and the standby has 1"),
            ("0:1,0:2", "twice"),
            ("0=1", "--from is"),
        ):
            Following(tally, journals, "--from", counts).ends(f"--from {counts}", 1, said)


def ends_when_nobody_reads(tally: Tally) -> None:
    """An output that nobody reads any more ends it."""
    with first_journals() as journals:
        follow = Following(tally, journals, "--from", "0:5,1:1")
        follow.writes("nothing more")
        follow.output.close()
        tally.expect(follow.running.wait(timeout=SECONDS), Status.OUTPUT, "its status")
        follow.errors.close()


def ends_over_other_journals(tally: Tally, said: str, change: Callable[[Journals], Optional[object]]) -> None:
    """Has the first journal changed behind what was written, and expects the end."""
    with first_journals() as journals:
        follow = Following(tally, journals, "--from", "0:1,1:1")
        follow.writes("what is durable", *feed(0, 1, FIRST[0][1 : DURABLE[0]]))
        change(journals)
        follow.ends(said, 1, said)


def ends_over_a_shortened_journal(tally: Tally) -> None:
    """A journal that lost what was written of it ends it."""
    ends_over_other_journals(tally, "shortened", lambda journals: os.truncate(journals.path(0), 60))


def replace(journals: Journals) -> None:
    """Puts another file in the journal's place."""
    path = f"{journals.folder}/other"
    with open(path, "w", encoding="ascii") as to:
        to.write(VERSION_LINE + "".join(FIRST[0][:3]))
    os.replace(path, journals.path(0))


def ends_over_a_replaced_journal(tally: Tally) -> None:
    """Another file in a journal's place ends it."""
    ends_over_other_journals(tally, "replaced", replace)


def ends_over_no_record(tally: Tally) -> None:
    """A line that is longer than any record ends it."""
    ends_over_other_journals(tally, "no record", lambda journals: journals.append("x" * 600 + "\n"))


def ends_over_another_version(tally: Tally) -> None:
    """A journal of another version ends it."""
    with new_journals() as journals:
        journals.append("v1\n")
        Following(tally, journals).ends("another version", 1, "no journal of version 2")


CHECKS = [
    check_of(body)
    for body in (
        writes_a_record_once_it_is_durable,
        follows_truncated_records,
        counts_what_is_unwritten,
        begins_behind_counts,
        ends_after_lines,
        writes_what_answers_name,
        refuses_counts,
        ends_when_nobody_reads,
        ends_over_a_shortened_journal,
        ends_over_a_replaced_journal,
        ends_over_no_record,
        ends_over_another_version,
    )
]
