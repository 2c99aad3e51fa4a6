"""Wrong bodies of the model of the rule: each leaves one sentence of it out, or changes it. Checks refuse them."""
import os
from collections.abc import Callable

from issuer_host.facts.paths import HOME
from issuer_host.replication.messages import Barrier, Record
from issuer_host.replication.rule_events import Beginning, State
from machines.bridge_model import BridgeModel
from machines.message_texts import Message, Records
from machines.rule_model import Answer, Bridge, Count, Held

# The model as a program: a wrong body is its word.
STAND_IN = os.path.join(HOME, "tests/stand_ins/rule_program")


class GreaterBarrier(Count):
    """Takes a barrier of any greater number."""

    __slots__ = ()

    def take(self, message: Message) -> list[Record]:
        if isinstance(message, Barrier) and message.number > self.barrier.number:
            self.barrier = message
        return super().take(message)


class EqualBarrier(Count):
    """Takes a barrier of the same number as the last one."""

    __slots__ = ()

    def take(self, message: Message) -> list[Record]:
        if isinstance(message, Barrier) and message.number == self.barrier.number:
            self.barrier = message
        return super().take(message)


class AnyBarrier(Count):
    """Takes a barrier whatever its number."""

    __slots__ = ()

    def take(self, message: Message) -> list[Record]:
        if isinstance(message, Barrier):
            self.barrier = message
        return super().take(message)


class AnyName(Count):
    """Takes records whatever their name: a deposed bridge goes on."""

    __slots__ = ()

    def take(self, message: Message) -> list[Record]:
        if isinstance(message, Records):
            message = message._replace(name=self.barrier.name)
        return super().take(message)


class AnyIndex(Count):
    """Takes a record whatever its place."""

    __slots__ = ()

    def takes(self, record: Record) -> bool:
        self.records[record.shard] += 1
        return True


class GoesOn(Bridge):
    """Goes on when another's barrier counts."""

    def barrier_counts(self) -> None:
        if self.count.barrier == self.barrier:
            super().barrier_counts()


class HoldsNothing(Bridge):
    """Sends each answer at once."""

    def release(self) -> None:
        while self.held:
            answer = self.held.popleft().answer
            if answer is not None:
                self.outside.reply(answer)


class SendsKept(Bridge):
    """Sends an answer at once that made no record."""

    has_recorded = False

    def recorded(self, records: list[Record]) -> None:
        self.has_recorded = True
        super().recorded(records)

    def answered(self, answer: Answer) -> None:
        is_new, self.has_recorded = self.has_recorded, False
        if is_new or self.state is not State.SERVING:
            super().answered(answer)
        else:
            self.outside.reply(answer)


class ComparesNothing(Bridge):
    """Takes what its journal has at a record's place for that record."""

    def settle(self, record: Record) -> None:
        if record.place < self.journals.length(record.shard):
            self.journals.counted(record)
        else:
            super().settle(record)


class WaitsForNothing(Bridge):
    """Answers before its own records of before count."""

    def host_loaded(self) -> None:
        self.write_again()


class KeepsAnswers(Bridge):
    """Keeps the answers of a host that was killed."""

    def stop(self) -> None:
        held = [Held(*entry) for entry in self.held]
        super().stop()
        self.held.extend(held)


COUNTS: tuple[type[Count], ...] = (GreaterBarrier, EqualBarrier, AnyBarrier, AnyName, AnyIndex)
BRIDGES: tuple[type[Bridge], ...] = (
    GoesOn,
    HoldsNothing,
    SendsKept,
    ComparesNothing,
    WaitsForNothing,
    KeepsAnswers,
)


def model_of(body: str) -> Callable[[Beginning], BridgeModel]:
    """Returns the model, with a wrong body if one is named."""
    bridge = next((kind for kind in BRIDGES if kind.__name__ == body), Bridge)
    count = next((kind for kind in COUNTS if kind.__name__ == body), Count)
    if body and bridge is Bridge and count is Count:
        raise ValueError(f"no wrong body is named {body}")
    return lambda beginning: BridgeModel(beginning, bridge, count)


def wrong_program(folder: str, body: str) -> str:
    """Writes a program to a folder that decides by a wrong body, and returns its path: NODE.json names it."""
    path = os.path.join(folder, f"rule-{body}")
    with open(os.open(path, os.O_CREAT | os.O_TRUNC | os.O_WRONLY, 0o700), "w", encoding="utf-8") as text:
        text.write(f"#!/bin/sh\nexec '{STAND_IN}' {body}\n")
    return path
