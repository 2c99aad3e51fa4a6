"""Runs of `issuer standby`, which take the lines of a feed into journals: a node's, or those that follow a primary.

A run checks a record as a start checks it, and gives no answer. That it goes on is seen by the bytes that it has taken.
"""
import time
from collections.abc import Callable, Sequence
from typing import Optional, Protocol

from issuer_host.facts.statuses import NOT_AGAIN
from issuer_host.files.open_journals import FirstJournals
from issuer_host.host.event_loop import Loop
from issuer_host.host.lifecycle import GiveUp, Kill, Lifecycle, Limits
from issuer_host.host.process import HostProcess
from issuer_host.host.supervisor import limits_of

# A run that takes nothing for so long, or doesn't end though it has all, is killed. The time that it needs to load its
# journals is added.
TAKE_SECONDS = 60.0
LOOK_SECONDS = 1.0
# So many lines wait for a run before no more are given to it.
MOST_WAITING = 1_000


class FeedOwner(Protocol):
    """Who has the lines of a feed."""

    def run_ended(self, status: int, said: Sequence[str]) -> None:
        """The run ended by itself. `said` is what it wrote: its numbers of records, or why it stopped."""

    def run_killed(self, why: str, needs_person: bool) -> None:
        """The run was killed, and has ended: another one may begin, or a person has to act first."""


class FeedRun:
    """One run after another, each begun by its owner."""

    def __init__(
        self,
        loop: Loop,
        command: Sequence[str],
        journal: str,
        owner: FeedOwner,
        clock: Callable[[], float] = time.monotonic,
    ) -> None:
        self.loop, self.command, self.journal, self.owner, self.clock = loop, command, journal, owner, clock
        self.run: Optional[HostProcess] = None
        # When the run is killed, how many bytes it had taken at the last look, and the journals that it has open.
        self.lifecycle = Lifecycle(limits_over(journal))
        self.taken = 0
        self.files = FirstJournals(journal)

    @property
    def is_running(self) -> bool:
        return self.run is not None

    @property
    def takes_lines(self) -> bool:
        """Whether there is a run that takes more lines, and not only those that it has."""
        return self.run is not None and self.run.input.is_open and not self.run.input.is_full()

    def has_room(self) -> bool:
        return self.run is None or len(self.run.input.unwritten) < MOST_WAITING

    def begin(self) -> None:
        """Begins a run. None may be running."""
        self.run = HostProcess(self.loop, self.command, lambda _: None, self.ended)
        self.lifecycle = Lifecycle(limits_over(self.journal))
        self.lifecycle.need()
        self.lifecycle.started(self.clock(), self.lifecycle.limits)
        self.taken = 0
        self.files = FirstJournals(self.journal)
        self.look_later(self.run)

    def put(self, line: bytes) -> int:
        """Gives the run a line. Returns its number in this run, from 1. `flush` has it written."""
        assert self.run is not None
        self.run.input.put(line)
        return self.run.input.lines

    def flush(self) -> None:
        """Lets the run have what was put."""
        if self.run is not None:
            self.run.input.flush()

    # The end of a run

    def close(self) -> None:
        """Lets the run take what was put, and end."""
        if self.run is not None:
            self.lifecycle.close(self.clock())
            self.run.input.close_when_written()

    def finish_now(self) -> "tuple[int, list[str]]":
        """Has the run take what was put and end, and waits for that. Returns its status, and what it said."""
        assert self.run is not None
        run, self.run = self.run, None
        status = run.finish_now(self.lifecycle.limits.closing)
        return status, list(run.last_lines)

    def kill(self) -> None:
        """Kills the run, if there is one. It has ended when this returns."""
        if self.run is not None:
            self.run.kill_now()
            self.run = None

    def ended(self, status: int, _: str) -> None:
        run, self.run = self.run, None
        self.owner.run_ended(status, list(run.last_lines) if run is not None else [])

    # Time

    def look_later(self, run: HostProcess) -> None:
        self.loop.call_later(LOOK_SECONDS, lambda: self.look(run))

    def look(self, run: HostProcess) -> None:
        """Kills a run that takes nothing, doesn't end, or has journals that others replaced."""
        if run is not self.run:
            return
        untaken = run.input.untaken()
        if run.input.bytes - untaken > self.taken:
            self.taken = run.input.bytes - untaken
            self.lifecycle.answered(self.clock())
        self.files.note()
        actions = self.lifecycle.look(self.clock(), untaken > 0, self.files.look())
        needs_person = any(isinstance(it, GiveUp) and it.status in NOT_AGAIN for it in actions)
        for action in actions:
            if isinstance(action, Kill):
                self.kill()
                self.owner.run_killed(action.why, needs_person)
                return
        self.look_later(run)


def limits_over(journal: str) -> Limits:
    """How long a run over these journals may take nothing, and how long it may take to end."""
    seconds = limits_of(journal).loading + TAKE_SECONDS
    return Limits(seconds, seconds, seconds)
