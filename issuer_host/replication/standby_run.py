"""Runs of `issuer standby`, which take records of the stream into the journals of a machine.

A run stays until a host has to begin or a journal is truncated.
"""
import re
import time
from collections.abc import Callable, Sequence
from typing import Optional

from issuer_host.facts.refusal import Refusal
from issuer_host.facts.statuses import NOT_AGAIN, Status, meaning_of
from issuer_host.files.seal_writer import SealWriter
from issuer_host.host.event_loop import Action, Loop
from issuer_host.host.feed_run import FeedRun
from issuer_host.replication.messages import Record
from issuer_host.replication.record_origins import FedLines, Origin, refusal_of

# With these a run ends in the same way until a person has acted.
NEED_A_PERSON = (*NOT_AGAIN, Status.BAD_FEED)
# The last line of a run that a line of its feed is bad.
BAD_LINE = re.compile(rf"stop {Status.BAD_FEED:d} ([1-9][0-9]*)")


class TransientFault(Exception):
    """Something failed that passes: the partition begins again from its position."""


class StandbyRun:
    """One run after another, begun when there is a record to take. `on_fault` gets what ended one."""

    def __init__(
        self,
        loop: Loop,
        command: Sequence[str],
        journal: str,
        name: str,
        on_fault: Callable[[Exception], object],
        clock: Callable[[], float] = time.monotonic,
    ) -> None:
        self.journal = journal
        # Who reports of it.
        self.name = name
        self.on_fault = on_fault
        self.runs = FeedRun(loop, command, journal, self, clock)
        self.sealing = SealWriter(journal, name)
        # From which message of the stream the lines came that the run was given.
        self.fed = FedLines()
        # What is called when the run has ended that is to end; None if it isn't to end.
        self.on_ended: Optional[Action] = None

    @property
    def is_running(self) -> bool:
        return self.runs.is_running

    def put(self, record: Record, origin: Origin) -> None:
        """Gives a record to the run, which is begun if there is none."""
        if not self.runs.takes_lines:
            self.end_now()
            sealing = SealWriter(self.journal, self.name)
            self.runs.begin()
            self.sealing = sealing
            self.fed.begin()
        number = self.runs.put(f"{record.shard} {record.place} {record.text}".encode("ascii"))
        self.fed.add(number, origin)

    def flush(self) -> None:
        """Lets the run have what was put."""
        self.runs.flush()

    def has_room(self) -> bool:
        return self.runs.has_room()

    def are_durable(self, shard: int, count: int) -> None:
        """Seals so many records of a shard."""
        self.sealing.are_durable(shard, count)
        self.sealing.look()

    # The end of a run

    def end(self, then: Action) -> None:
        """Lets the run take what was put and end. Then, or if there is none, the action is called."""
        if not self.runs.is_running:
            then()
            return
        self.on_ended = then
        self.runs.close()

    def forget_then(self) -> None:
        """What was to be called when the run has ended isn't called."""
        if self.on_ended is not None:
            self.on_ended = lambda: None

    def run_ended(self, status: int, said: Sequence[str]) -> None:
        then, self.on_ended = self.on_ended, None
        self.sealing.end()
        if status == Status.OK and then is not None:
            then()
        else:
            self.on_fault(self.fault_of(status, said))

    def run_killed(self, why: str, needs_person: bool) -> None:
        self.on_ended = None
        self.sealing.end()
        told = f"the run of standby over {self.journal} was killed: {why}"
        self.on_fault(Refusal(told) if needs_person else TransientFault(told))

    def end_now(self) -> None:
        """Has the run take what was put and end, and waits for that."""
        if not self.runs.is_running:
            return
        self.on_ended = None
        status, said = self.runs.finish_now()
        self.sealing.end()
        if status != Status.OK:
            raise self.fault_of(status, said)

    def kill(self) -> None:
        """Kills the run: what it hasn't taken is read again."""
        self.on_ended = None
        if self.runs.is_running:
            self.runs.kill()
            self.sealing.end()

    def fault_of(self, status: int, said: Sequence[str]) -> Exception:
        last = said[-1] if said else ""
        bad = BAD_LINE.fullmatch(last)
        origin = self.fed.of(int(bad[1])) if bad else None
        if origin is not None:
            return refusal_of(origin, f"standby ended with `{last}`, {meaning_of(status)}")
        if status in NEED_A_PERSON:
            why = f"{last}: {meaning_of(status)}" if last else meaning_of(status)
            return Refusal(f"the records of the stream aren't taken into {self.journal}: {why}")
        return TransientFault(f"standby ended with {status}, {last or 'without a last line'}: {meaning_of(status)}")
