"""The program that decides, for worlds of many machines: one process for all rules of a world, over its lines.

The program keeps the rule that it was given last. So another one begins anew with what it was told so far.
"""
import contextlib
import os
import subprocess
from collections.abc import Callable, Hashable, Iterator, Sequence
from typing import Optional, TypeVar

from issuer_host.replication.messages import Barrier, LOGS, NO_BARRIER, Record
from issuer_host.replication.rule_events import (
    Action,
    AppendRecord,
    BarrierCounts,
    Beginning,
    Event,
    MessageRead,
    RecordsCount,
    Told,
)
from issuer_host.replication.rule_lines import lines_of_beginning, lines_of_event
from issuer_host.replication.rule_program import PIECE, RuleProgram, TurnAnswers
from machines.bridge_model import BridgeModel
from machines.message_texts import Message, text_of

Lines = list[str]
NewModel = Callable[[Beginning], BridgeModel]
Process = TypeVar("Process", bound=RuleProgram)
# So many turns are asked together.
AT_A_TIME = 50


class SharedProgram:
    """A program that decides."""

    def __init__(self, command: Sequence[str]) -> None:
        self.command = command
        self.start()

    def start(self) -> None:
        self.process = subprocess.Popen(self.command, stdin=subprocess.PIPE, stdout=subprocess.PIPE, bufsize=0)
        # Which rule it has.
        self.has: Optional["ProgramRule"] = None

    def new_rule(self) -> "Callable[[Beginning], ProgramRule]":
        return lambda beginning: ProgramRule(self, beginning)

    def ask(self, turns: Sequence[Lines]) -> list[Action]:
        """Writes the lines of turns, so many at a time as a pipe has, and returns the actions of their answers."""
        return [action for at in range(0, len(turns), AT_A_TIME) for action in self.answer(turns[at : at + AT_A_TIME])]

    def answer(self, turns: Sequence[Lines]) -> Sequence[Action]:
        assert self.process.stdin is not None and self.process.stdout is not None
        answers = TurnAnswers(len(turns))
        self.process.stdin.write("".join(f"{line}\n" for turn in turns for line in turn).encode())
        while not answers.is_whole:
            piece = os.read(self.process.stdout.fileno(), PIECE)
            if not piece:
                raise RuntimeError(f"the rule's program ended with {self.process.wait()}")
            answers.take(piece)
        if answers.stops():
            # (it ends then, for all rules)
            self.end()
            self.start()
        return answers.actions

    def end(self) -> None:
        assert self.process.stdin is not None and self.process.stdout is not None
        self.process.stdin.close()
        self.process.wait()
        self.process.stdout.close()


class ProgramRule:
    """A rule of a program."""

    def __init__(self, program: SharedProgram, beginning: Beginning) -> None:
        self.program = program
        self.beginning = [[line] for line in lines_of_beginning(beginning)]
        self.turns: list[Lines] = []

    def take(self, *events: Event) -> Sequence[Action]:
        """Takes what happened. Returns what is to be done, in this order."""
        if self.program.has is not self:
            self.program.has = self
            self.program.ask([*self.beginning, *self.turns])
        turns = [lines_of_event(event) for event in events]
        self.turns += turns
        return self.program.ask(turns)

    def state(self) -> Hashable:
        return tuple(tuple(turn) for turn in self.turns)

    def look(self) -> None:
        pass

    def end(self) -> None:
        pass


class Differs(Exception):
    """The program doesn't say what the model says."""


def same(events: Sequence[Event], by_program: Sequence[Action], by_model: Sequence[Action]) -> Sequence[Action]:
    """Returns what both say is to be done. A Differs says that they don't say the same."""
    if list(by_program) != list(by_model):
        raise Differs(f"the program says {by_program} at {events}, and the model {by_model}")
    return by_program


class ComparedRule(ProgramRule):
    """The program, and the model that has to say the same at each turn. A world that has it can be pickled."""

    # The program of all rules.
    shared: SharedProgram

    def __init__(self, beginning: Beginning) -> None:
        super().__init__(self.shared, beginning)
        self.model = BridgeModel(beginning)

    def __getstate__(self) -> dict[str, object]:
        return {name: value for name, value in vars(self).items() if name != "program"}

    def __setstate__(self, state: dict[str, object]) -> None:
        vars(self).update(state)
        self.program = self.shared

    def take(self, *events: Event) -> Sequence[Action]:
        """Takes what happened. Returns what is to be done, which both have to say."""
        return same(events, super().take(*events), self.model.take(*events))

    def state(self) -> Hashable:
        return self.model.state()


class ComparedProcess(RuleProgram):
    """A process of its own, as a node has it, and the model that has to say the same at each turn."""

    def __init__(self, command: Sequence[str], beginning: Beginning, model: NewModel = BridgeModel) -> None:
        super().__init__(command, beginning)
        self.model = model(beginning)

    def take(self, *events: Event) -> Sequence[Action]:
        """Takes what happened. Returns what is to be done, which both have to say."""
        return same(events, super().take(*events), self.model.take(*events))

    def state(self) -> Hashable:
        return self.model.state()


class RuleProcess(RuleProgram):
    """A process of its own, as a node has it."""

    def state(self) -> Hashable:
        return id(self)


class ProgramCount:
    """What counts in a stream by the program, which follows it: as `Count` of the model."""

    def __init__(
        self,
        program: SharedProgram,
        barrier: Barrier = NO_BARRIER,
        records: tuple[int, ...] = (0,) * LOGS,
    ) -> None:
        self.barrier, self.records = barrier, list(records)
        self.rule = ProgramRule(program, Beginning("m1", barrier, records))
        self.rule.take(Told())

    def take(self, message: Message) -> list[Record]:
        """Takes the stream's next message, and returns those of its records that count."""
        found = []
        for action in self.rule.take(MessageRead(text_of(message))):
            if isinstance(action, BarrierCounts):
                self.barrier = action.barrier
            elif isinstance(action, RecordsCount):
                self.records[action.shard] = action.number
            elif isinstance(action, AppendRecord):
                found.append(action.record)
        return found


@contextlib.contextmanager
def processes(start: "Callable[[Beginning], Process]") -> "Iterator[Callable[[Beginning], Process]]":
    """Rules that are processes of their own, which all end with this."""
    started: list[Process] = []

    def new_rule(beginning: Beginning) -> Process:
        started.append(start(beginning))
        return started[-1]

    try:
        yield new_rule
    finally:
        for rule in started:
            rule.end()
