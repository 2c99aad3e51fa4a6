"""Reads a partition's stream, message after message, and writes again what doesn't come back."""
import time
from collections.abc import Sequence
from typing import Any, Protocol

from issuer_host.host.event_loop import Loop, call_soon
from issuer_host.replication.journal_files import JournalFiles
from issuer_host.replication.messages import is_mark
from issuer_host.replication.node_stops import StepGuard
from issuer_host.replication.own_messages import OwnMessages, RECORDS
from issuer_host.replication.positions import BEFORE, first_text
from issuer_host.replication.record_origins import Origin, RefusedRecord, refusal_of
from issuer_host.replication.rule_events import State
from issuer_host.replication.rule_turns import Answer, RuleTurns
from issuer_host.replication.stream import Stream, Taken

# What didn't come back is written again after so long, and reading begins anew after so long without any message; after
# longer if nothing is waited for.
QUIET_SECONDS, DEAF_SECONDS, IDLE_SECONDS = 3.0, 4.0, 30.0
# So many messages are read before the loop looks after other partitions.
PIECE = 50
# A machine that follows reads so many messages together, or what came in so long.
GATHERED, GATHER_SECONDS = 20, 0.05
# While a run of standby has as many lines as it may, nothing is read for so long.
ROOM_SECONDS = 0.02


class MessageWatcher(Protocol):
    """Who follows what is read."""

    def answered(self) -> "Sequence[Answer]":
        """Returns what the host has answered, whose records were read."""

    def was_read(self) -> None:
        """The rule has taken a message."""

    def passed_over(self, offset: int, why: str) -> None:
        """A message is none that a node wrote."""


class StreamReader:
    """Gives a replica's rule what its stream delivers."""

    def __init__(
        self,
        loop: Loop,
        guard: StepGuard,
        stream: Stream,
        journals: JournalFiles,
        rule: RuleTurns,
        watcher: MessageWatcher,
    ) -> None:
        self.loop, self.guard = loop, guard
        self.stream, self.journals, self.rule = stream, journals, rule
        self.watcher = watcher
        # Whether there is something to read, and the loop comes to it; whether it does a moment later.
        self.is_called = self.is_gathering = False
        # When something was written last that comes back, or came back; and when a message was read last, or reading
        # began. (What others write says nothing of what this machine wrote.)
        self.heard = self.read_at = 0.0
        # What was written and didn't come back.
        self.own = OwnMessages()

    def open(self, connection: Any) -> None:
        """Begins to read and to write by a connection."""
        self.heard = self.read_at = time.monotonic()
        self.stream.open(connection)
        if self.stream.place.offset == BEFORE:
            self.stream.writer.write(first_text(self.stream.place.digest))

    def call(self) -> None:
        """Has the loop come to what was delivered: soon, or for a machine that follows a moment later.

        Nobody waits for what another machine recorded. So its messages are taken together, as its standby takes them.
        """
        if self.is_called:
            return
        if self.rule.state is not State.WAITING or len(self.stream.unread) >= GATHERED:
            self.is_called = True
            call_soon(self.loop, lambda: self.guard.take(self.read_on))
        elif not self.is_gathering:
            self.is_gathering = True
            self.loop.call_later(GATHER_SECONDS, lambda: self.guard.take(self.read_gathered))

    def read_gathered(self) -> None:
        self.is_gathering = False
        if not self.is_called:
            self.read_on()

    def read_on(self) -> None:
        self.is_called = False
        for _ in range(PIECE):
            if not self.journals.standby.has_room():
                self.is_called = True
                self.loop.call_later(ROOM_SECONDS, lambda: self.guard.take(self.read_on))
                break
            taken = self.stream.next()
            if taken is None:
                break
            self.take(taken)
        else:
            self.call()
        self.journals.standby.flush()

    def take(self, taken: Taken) -> None:
        """Takes the stream's next message. One that no node wrote counts nowhere, on all machines alike."""
        self.read_at = time.monotonic()
        if taken.text is None:
            self.watcher.passed_over(taken.offset, taken.why)
        else:
            if self.rule.state is State.SERVING and not is_mark(taken.text):
                self.heard = self.read_at
            self.read(taken.offset, taken.text)

    def read(self, offset: int, text: str) -> None:
        self.journals.origin = Origin(self.stream.name, offset, self.rule.barrier.machine)
        # (the answers that wait go to the rule in the same turn: its program is asked once for both)
        has_answers = self.rule.state is State.SERVING and text.startswith(RECORDS)
        try:
            self.rule.read(text, *(self.watcher.answered() if has_answers else ()))
        except RefusedRecord as fault:
            raise refusal_of(self.journals.origin, str(fault)) from fault
        if self.own.is_gap(text) and self.rule.state is State.SERVING:
            self.write_again()
        self.watcher.was_read()

    def write(self, text: str) -> None:
        """Writes a message, which comes back in a while."""
        self.wrote()
        self.own.wrote(text)
        self.stream.writer.write(text)

    def wrote(self) -> None:
        """Something was written: it comes back in a while."""
        self.heard = time.monotonic()

    def write_again(self) -> None:
        """Writes what didn't come back on a new channel."""
        self.wrote()
        self.own.forget()
        self.stream.writer.begin_anew()
        self.rule.write_again()

    def look(self, now: float) -> None:
        """Writes again what didn't come back, and reads by a new channel if nothing comes: nobody tells of either."""
        is_owed = self.is_owed()
        if now - self.heard > QUIET_SECONDS:
            if not self.stream.is_compared:
                self.stream.probe()
            if is_owed:
                self.write_again()
        if now - self.read_at > (DEAF_SECONDS if is_owed else IDLE_SECONDS):
            self.read_at = now
            self.stream.read_anew()

    def is_owed(self) -> bool:
        """Whether something was written that didn't come back."""
        if self.rule.state in (State.READING, State.BEGINNING):
            return True
        return self.rule.state is State.SERVING and bool(self.journals.uncounted())
