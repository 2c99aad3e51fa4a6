"""A partition's host with the lines that are put to it, and what its journals say of commands and statuses."""
from collections.abc import Callable, Sequence
from typing import NamedTuple, Optional, Protocol

from issuer_host.facts.proof import ProgramIdentity
from issuer_host.host.event_loop import Action, Loop
from issuer_host.host.line_queue import LineQueue
from issuer_host.host.lines import Entry, Line
from issuer_host.host.records_reader import RecordsReader
from issuer_host.host.supervisor import Supervisor


class HostSettings(NamedTuple):
    """Which host is run, over which journals, and who reports what it does."""

    command: Sequence[str]
    journal: str
    name: str
    # So many lines the host has at a time; None if whoever adds them has a bound.
    window: Optional[int] = None
    # The path of the socket at which orders are taken; none if it is empty.
    orders: str = ""
    # Whether lines are written once for all that come in a moment.
    is_batched: bool = False
    # Has the log written in a moment, before an answer leaves; None if it is written line by line.
    log_later: Optional[Callable[[Action], object]] = None
    # The moment of a second at which it looks at the run, and seals; None where a process has one partition.
    moment: Optional[float] = None


class HostUser(Protocol):
    """Whose requests the host answers."""

    def may_pass(self, entry: Entry) -> bool:
        """Whether a request may be put now. If not, whoever says so adds it again, or drops it."""

    def answered(self, entry: Entry, text: str) -> None:
        """The host answered a request."""


class HostWatcher(Protocol):
    """Who follows what becomes of the host."""

    def loaded(self) -> None:
        """The journals are loaded, and no line was put yet."""

    def records_read(self) -> None:
        """What the journals said of commands and statuses then was read."""

    def host_ended(self, status: int) -> None:
        """The host ended."""

    def gave_up(self, status: int) -> None:
        """A new start ends with this status too, until a person has acted or what fails has passed."""


class HostFigures(Protocol):
    """Counts the runs of a host."""

    def started(self) -> None:
        """A run was started."""

    def loaded(self, seconds: float, program: Optional[ProgramIdentity]) -> None:
        """A run of a program has loaded the journals in so long."""

    def ended(self, status: int) -> None:
        """A run ended; a signal is negative."""


class AnswerPacer(Protocol):
    """Who says when an answer may be known."""

    def pass_on(self, text: str, take: Action) -> None:
        """Takes an answer by the action: now, or later in the order of the answers."""


class LineHost:
    """The owner of a supervised host."""

    def __init__(
        self,
        loop: Loop,
        settings: HostSettings,
        user: HostUser,
        watcher: HostWatcher,
        figures: HostFigures,
        pacer: Optional[AnswerPacer] = None,
    ) -> None:
        """Without a pacer each answer may be known at once."""
        self.loop, self.settings = loop, settings
        self.user, self.watcher, self.figures, self.pacer = user, watcher, figures, pacer
        self.lines = LineQueue(settings.window)
        self.supervisor = Supervisor(loop, settings.command, settings.journal, self, settings.name, settings.moment)
        self.reader = RecordsReader(loop, settings.journal, settings.name, self.records_read)
        self.is_loaded = self.is_flushing = False

    # Lines

    def add(self, entry: Entry) -> None:
        """Puts a request to the host, which is started if there is none."""
        self.lines.add(entry)
        if not self.settings.is_batched or not self.lines.given:
            # (a host that has nothing to do gets a line at once)
            self.flush()
        elif not self.is_flushing:
            self.flush_soon()

    def flush_soon(self) -> None:
        if not self.is_flushing:
            self.is_flushing = True
            self.loop.add_callback_threadsafe(self.flush)

    def flush(self) -> None:
        """Puts what waits to the host, as far as its window goes."""
        self.is_flushing = False
        if not self.supervisor.takes_lines:
            if self.lines.waiting:
                self.supervisor.need()
            return
        # (a run has room for all of a moment past the limit that ends it)
        while entry := self.lines.next(self.user.may_pass):
            self.supervisor.put(entry.line)
        self.supervisor.flush()

    def put_now(self, line: Line) -> None:
        """Puts a line that isn't put again if this host ends."""
        self.lines.give(line)
        self.supervisor.put(line.line)
        self.supervisor.flush()

    # The host

    def want(self) -> None:
        """Starts a host if there is none."""
        self.supervisor.need()

    @property
    def is_running(self) -> bool:
        return self.supervisor.run is not None

    def is_ready(self) -> bool:
        """Whether a host takes lines, and what its journals said was read."""
        return self.supervisor.takes_lines and self.reader.is_read and not self.supervisor.is_full

    def is_idle(self) -> bool:
        """Whether a host has loaded its journals and has nothing to do."""
        return self.supervisor.takes_lines and not len(self.lines)

    def abandon(self) -> None:
        """Lets the host end, and answers nobody."""
        self.lines.abandon()
        self.supervisor.unneed()
        self.supervisor.close()

    def close(self) -> None:
        """Lets the host end."""
        self.supervisor.close()

    def stop(self) -> None:
        """Starts no more hosts, and lets the one that runs end."""
        self.supervisor.stop()

    def kill_now(self, status: int) -> None:
        """Kills the host, answers nobody, and doesn't start another. It has ended when this returns."""
        self.lines.clear()
        self.reader.end()
        if self.supervisor.kill_now():
            self.figures.ended(status)

    # What the supervisor calls

    def started(self) -> None:
        self.is_loaded = False
        self.figures.started()
        self.reader.begin()

    def loaded(self, seconds: float) -> None:
        self.is_loaded = True
        run = self.supervisor.run
        self.figures.loaded(seconds, run.program() if run is not None else None)
        self.reader.loaded()
        self.watcher.loaded()
        self.flush()

    def answered(self, text: str) -> None:
        if self.pacer is None:
            self.take(text)
        else:
            self.pacer.pass_on(text, lambda: self.take(text))

    def take(self, text: str) -> None:
        """Takes the host's next answer."""
        given = self.lines.answered()
        if self.lines.waiting:
            # (the window has room again)
            self.flush_soon()
        if isinstance(given, Entry):
            self.user.answered(given, text)
        elif given is not None:
            given.on_answer(text)

    def ended(self, status: int) -> None:
        self.reader.end()
        self.figures.ended(status)
        self.lines.ended()
        self.watcher.host_ended(status)
        if self.lines.waiting:
            self.supervisor.need()

    def gave_up(self, status: int) -> None:
        self.watcher.gave_up(status)

    def records_read(self) -> None:
        self.watcher.records_read()
