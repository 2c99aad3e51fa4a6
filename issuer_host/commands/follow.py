"""Follows the journals of a host that runs, and writes their records as a feed for a standby.

usage: follow --journal NAME [--from COUNTS] [--answers FILE] [--lines N] [--every SECONDS] [--figures FILE] [--seals]

  follow --journal NAME --from "$(issuer standby --config FILE --feed /dev/null --journal OTHER)" |
      issuer standby --config FILE --feed /dev/stdin --journal OTHER

--from     how many records of each shard the standby has, as it prints them, or as 0:17,1:3; 0 if a shard isn't named
--answers  a pipe with the host's answers: what an answer names is written at once
--lines    ends after so many lines (1,048,576, which is all that one run of a standby takes)
--every    how long it waits before it looks for more (0.02)
--figures  a file for the text file collector of Prometheus' node exporter: how many bytes aren't written yet
--seals    seals what it writes, in the files beside the journals that a careful start checks. A bridge does so itself

A record is written once it is durable for certain: when more of the journal follows it, or an answer names it. So
without --answers the last record of each shard waits for the next one. It only reads the journals, and takes no lock on
them; with --seals it writes the seals beside them, if it can.

It ends with 0 at SIGTERM or SIGINT, after --lines, or when the answers end, always after a whole line; with 4 if nobody
reads its output any more; with 1 if the journals aren't those that it began with, and says why.
"""
import argparse
import os
import re
import select
import signal
import sys
import time
from collections.abc import Mapping, Sequence
from typing import NamedTuple, Optional

from issuer_host.facts.journals import journal_path
from issuer_host.facts.limits import MAX_SHARDS, RUN_LINES
from issuer_host.facts.refusal import Refusal
from issuer_host.facts.troubles import Level, say
from issuer_host.facts.statuses import Status
from issuer_host.files.durable_lines import AnswerPipe, FollowedJournal
from issuer_host.files.seal_writer import SealWriter
from issuer_host.telling import textfile

NAME = "follow"
# Written to a pipe whole or not at all.
ATOMIC = select.PIPE_BUF
COUNT = re.compile(r"(\d+)[: ](\d+)")
OUTPUT = 1
FIGURES_SECONDS = 1.0


class Closed(Exception):
    """Nobody reads the output any more."""


class FollowOptions(NamedTuple):
    """The words of the command."""

    journal: str
    starts: str
    answers: Optional[str]
    lines: int
    every: float
    figures: Optional[str]
    seals: bool


def options_of(words: Sequence[str]) -> FollowOptions:
    parser = argparse.ArgumentParser(usage=__doc__)
    parser.add_argument("--journal", required=True)
    parser.add_argument("--from", dest="starts", default="")
    parser.add_argument("--answers")
    parser.add_argument("--lines", type=int, default=RUN_LINES)
    parser.add_argument("--every", type=float, default=0.02)
    parser.add_argument("--figures")
    parser.add_argument("--seals", action="store_true")
    return FollowOptions(**vars(parser.parse_args(words)))


class Output:
    """The standard output, which gets whole lines, and how many more it may get."""

    def __init__(self, lines: int) -> None:
        self.left = lines
        self.pending = b""

    def add(self, line: bytes) -> None:
        if len(self.pending) + len(line) > ATOMIC:
            self.write()
        self.pending += line
        self.left -= 1

    def write(self) -> None:
        try:
            while self.pending:
                self.pending = self.pending[os.write(OUTPUT, self.pending) :]
        except BrokenPipeError as fault:
            raise Closed from fault


class Follower:
    """The journals of a host, the shards' first indexes, the answers, and the output."""

    def __init__(
        self,
        name: str,
        starts: Mapping[int, int],
        answers: AnswerPipe,
        output: Output,
        figures: Optional[str] = None,
        sealing: Optional[SealWriter] = None,
    ) -> None:
        self.name = name
        self.figures = figures
        self.sealing = sealing
        # When the figures were written last.
        self.told = 0.0
        self.starts = starts
        self.answers = answers
        self.output = output
        self.journals: list[FollowedJournal] = []
        self.poll = select.poll()
        # (an error of the output alone: nobody reads it)
        self.poll.register(OUTPUT, 0)
        if answers.file is not None:
            self.poll.register(answers.file, select.POLLIN)

    def open_more(self) -> None:
        """Opens the journals that there are: a host that begins creates them one after another."""
        for shard in range(len(self.journals), MAX_SHARDS):
            if not os.path.exists(journal_path(self.name, shard)):
                return
            self.journals.append(FollowedJournal(shard, self.name, self.starts.get(shard, 0)))

    def begin(self) -> None:
        self.open_more()
        for shard, index in self.starts.items():
            if index and shard >= len(self.journals):
                path = journal_path(self.name, shard)
                raise Refusal(f"there is no journal {path}, and the standby has {index} of its records")
        if not self.journals:
            say(NAME, Level.NOTICE, f"there is no journal {journal_path(self.name, 0)} yet; waiting for it")

    def wait(self, seconds: float) -> None:
        """Waits for answers or so long, and takes the answers."""
        for file, event in self.poll.poll(1000 * seconds):
            if file == OUTPUT and event & (select.POLLERR | select.POLLHUP):
                raise Closed
            if file == self.answers.file:
                self.answers.take()

    def write_durable(self) -> int:
        """Writes the records that are durable now, and returns how many there were."""
        before = self.output.left
        for journal in self.journals:
            journal.check()
            for line in journal.durable_lines(self.answers.counts.get(journal.shard, 0)):
                if self.output.left:
                    self.output.add(f"{journal.shard} {journal.index} ".encode() + line)
                    journal.wrote(line)
        self.output.write()
        return before - self.output.left

    def follow(self, seconds: float) -> None:
        self.begin()
        while self.output.left:
            are_all = self.answers.are_all
            count = self.write_durable()
            self.seal()
            if are_all and not count:
                return
            self.wait(0 if count or are_all else seconds)
            self.open_more()
            self.tell_figures()

    def seal(self) -> None:
        """Seals what is durable for certain: what was written is."""
        if self.sealing is not None:
            for journal in self.journals:
                self.sealing.are_durable(journal.shard, journal.index)
            self.sealing.look()

    def tell_figures(self) -> None:
        """Writes how far the feed is behind, once a second. That it can't be written ends nothing."""
        if self.figures is None or time.monotonic() - self.told < FIGURES_SECONDS:
            return
        self.told = time.monotonic()
        behind = sum(journal.unwritten() for journal in self.journals)
        values = {"issuer_follow_unwritten_bytes": behind, "issuer_follow_seconds": textfile.now()}
        try:
            textfile.write(self.figures, {"journal": self.name}, values)
        except OSError as fault:
            say(NAME, Level.WARNING, f"no figures: {fault.strerror}")


def starts_of(text: str) -> dict[int, int]:
    """Returns the index of each shard's first record, from the numbers that a standby printed."""
    starts: dict[int, int] = {}
    for word in re.split(r"[,\n]", text):
        if not word:
            continue
        count = COUNT.fullmatch(word)
        if not count:
            raise Refusal(f"--from is a standby's numbers of records, or words as 0:17,1:3, and not {text!r}")
        shard = int(count[1])
        if shard in starts or shard >= MAX_SHARDS:
            raise Refusal(f"--from names a shard twice, or one that can't be: {text!r}")
        starts[shard] = int(count[2])
    return starts


def main(words: Sequence[str]) -> int:
    options = options_of(words)
    for number in (signal.SIGINT, signal.SIGTERM):
        signal.signal(number, lambda *_: sys.exit(Status.OK))
    try:
        starts = starts_of(options.starts)
        answers = AnswerPipe(options.answers)
        sealing = SealWriter(options.journal, NAME) if options.seals else None
        follower = Follower(options.journal, starts, answers, Output(options.lines), options.figures, sealing)
        follower.follow(options.every)
    except Closed:
        return Status.OUTPUT
    except Refusal as refusal:
        say(NAME, Level.ERROR, str(refusal))
        return 1
    except OSError as fault:
        say(NAME, Level.WARNING, f"{fault.filename or 'the output'}: {fault.strerror}")
        return 1
    return Status.OK
