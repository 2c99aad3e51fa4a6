"""The host's answers, each of which waits until its record counts."""
from typing import Optional

from issuer_host.facts.answers import RECORDED
from issuer_host.host.event_loop import Action, Loop, call_soon
from issuer_host.replication.journal_files import JournalFiles
from issuer_host.replication.messages import Place
from issuer_host.replication.node_stops import StepGuard
from issuer_host.replication.rule_turns import Answer, RuleTurns
from issuer_host.replication.stream_reader import StreamReader


class RecordedAnswers:
    """The answers of a replica's host, in their order: their records are written, and they wait for these."""

    def __init__(
        self, loop: Loop, guard: StepGuard, journals: JournalFiles, rule: RuleTurns, reader: StreamReader
    ) -> None:
        self.loop, self.guard = loop, guard
        self.journals, self.rule, self.reader = journals, rule, reader
        # The answers whose records weren't written yet, and whether the loop comes to them.
        self.answers: "list[tuple[str, Action]]" = []
        self.is_passing = False

    def add(self, text: str, take: Action) -> None:
        """Takes a host's answer."""
        self.answers.append((text, take))
        self.pass_soon()

    def clear(self) -> None:
        self.answers.clear()

    def pass_soon(self) -> None:
        """Has the answers taken, unless records are on their way: those of a turn there and back are written together.

        So a busy partition has few messages, and one that has one request in hand waits for nothing. What is on its way
        takes them with it when it comes back.
        """
        if self.answers and not self.is_passing and not self.journals.uncounted():
            self.is_passing = True
            call_soon(self.loop, lambda: self.guard.take(self.write_records))

    def write_records(self) -> None:
        """Has the records written that the answers say are durable, and lets the answers wait for them."""
        self.is_passing = False
        self.rule.recorded(*self.taken())

    def taken(self) -> "list[Answer]":
        """Takes the answers that there are, and reads the records that they say are durable."""
        answers = [(take, place_of(text)) for text, take in self.answers]
        self.answers.clear()
        ends: "dict[int, int]" = {}
        for _, place in answers:
            if place is not None:
                ends[place[0]] = max(ends.get(place[0], 0), place[1] + 1)
        self.journals.recorded(ends)
        if self.journals.uncounted():
            self.reader.wrote()
        return answers


def place_of(answer: str) -> Optional[Place]:
    """Returns the shard and the place of the record that an answer names, if it names one."""
    words = answer.split(" ", 3)
    return (int(words[1]), int(words[2])) if words[0] in RECORDED else None
