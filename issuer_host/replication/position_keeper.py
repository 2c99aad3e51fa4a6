"""Keeps a replica's position in the file beside its journals."""
from collections.abc import Callable
from typing import Optional, Protocol

from issuer_host.replication import positions
from issuer_host.replication.journal_files import JournalFiles
from issuer_host.replication.positions import Position


class PositionUser(Protocol):
    """The replica whose position is kept."""

    def position(self) -> Position:
        """Returns the position of what was read."""

    def position_failed(self, fault: OSError) -> None:
        """A position couldn't be written."""


class PositionKeeper:
    """Writes positions, each once the journals have what counts there. `kept` is the last one that was written."""

    def __init__(
        self, writer: positions.Keeper, journal: str, journals: JournalFiles, kept: Position, user: PositionUser
    ) -> None:
        self.writer, self.journal, self.journals = writer, journal, journals
        self.kept, self.user = kept, user
        # The position that is written next, and whether one is being written.
        self.waiting: Optional[Position] = None
        self.is_keeping = False

    def look(self) -> None:
        """Has a position written, once the journals have what counts there."""
        if self.waiting is None:
            self.waiting = self.user.position()
        position = self.waiting
        if self.is_keeping or not self.journals.are_there(position):
            return
        self.waiting = None
        if position != self.kept:
            self.is_keeping = True
            self.write(position, self.written)

    def written(self, fault: Optional[OSError]) -> None:
        self.is_keeping = False
        if fault is not None:
            self.user.position_failed(fault)

    def keep_now(self, then: Callable[[Optional[OSError]], object]) -> None:
        """Has the position of what was read written, and goes on then, with what that failed by."""
        self.waiting = None
        self.write(self.user.position(), then)

    def write(self, position: Position, then: Callable[[Optional[OSError]], object]) -> None:
        # (what a standby appended may not be durable yet)
        grown = self.journals.grown(self.kept, position)

        def written(fault: Optional[OSError]) -> None:
            if fault is None:
                self.kept = position
                self.journals.standby.fed.forget(position.offset)
            then(fault)

        self.writer.add(lambda: positions.keep(self.journal, position, grown), written)
