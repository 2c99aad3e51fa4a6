"""Reads what a host's journals say of commands and statuses, piece by piece, while the host loads them too."""
import contextlib
from collections.abc import Callable

from issuer_host.facts.troubles import Level, say
from issuer_host.files.card_records import CardRecords
from issuer_host.host.event_loop import Loop

# A look whether a host has loaded what was read of its journals meanwhile.
READ_SECONDS = 0.02
# After a fault it is tried again.
FAULT_SECONDS = 2.0


class RecordsReader:
    """The commands and statuses of the journals of one run after another."""

    def __init__(self, loop: Loop, journal: str, name: str, on_read: Callable[[], object]) -> None:
        self.loop, self.journal, self.name, self.on_read = loop, journal, name, on_read
        self.records = CardRecords(journal)
        # Whether the run has loaded its journals, and whether all was read that they said then.
        self.is_loaded = self.is_read = self.is_reading = False

    def begin(self) -> None:
        """A run begins to load the journals."""
        self.records = CardRecords(self.journal)
        self.is_loaded = self.is_read = False
        self.is_reading = True
        self.read_on(self.records)

    def loaded(self) -> None:
        """The run has loaded them: what it appends from now on is noted by its answers."""
        self.is_loaded = True
        with contextlib.suppress(OSError):
            # (reading on says why)
            self.records.mark()

    def end(self) -> None:
        """The run has ended."""
        self.is_read = self.is_reading = False

    def read_on(self, records: CardRecords) -> None:
        """Reads a piece, and has the next one read when the loop comes to it."""
        if records is not self.records or not self.is_reading:
            records.close()
            return
        try:
            are_all, seconds = records.read_on(), 0.0
        except (OSError, ValueError) as fault:
            say(self.name, Level.WARNING, f"the journals can't be read for their commands: {fault}")
            are_all, seconds = False, FAULT_SECONDS
        if are_all and self.is_loaded:
            records.close()
            self.is_reading, self.is_read = False, True
            self.on_read()
            return
        self.loop.call_later(max(seconds, READ_SECONDS * are_all), lambda: self.read_on(records))
