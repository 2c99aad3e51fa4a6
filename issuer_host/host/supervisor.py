"""Supervises a host: owns its process, and does what the lifecycle decides.

Each run begins by the careful start. A host gets a line of no form first, the probe. Its answer says that the journals
are loaded. Records are sealed while the run writes them.
"""
import os
import time
from collections.abc import Sequence
from typing import Optional, Protocol

from issuer_host.facts.journals import journals_of
from issuer_host.facts.troubles import Level, say
from issuer_host.facts.statuses import NOT_AGAIN, meaning_of
from issuer_host.files.open_journals import FirstJournals, Look, REPLACED
from issuer_host.files.seal_writer import SealWriter
from issuer_host.host.event_loop import Loop
from issuer_host.host.lifecycle import Action, Close, GiveUp, Kill, Lifecycle, Limits, Start, HostState, Wait
from issuer_host.host.process import HostProcess

# A host that has answered before and is silent so long is killed, and so is one that is being closed.
SILENT_SECONDS = 10.0
# Before its first answer it loads its journals: it has so long, and a second more for so many of their bytes.
LOAD_SECONDS = 20.0
LOAD_BYTES = 2_000_000
# The line that a host gets first: it has no form, and leaves no record. Its answer comes once the journals are loaded.
PROBE, PROBE_ANSWER = b"x", "refused 1 1"
LOOK_SECONDS = 1.0
EARLY_SECONDS = 0.01
# Between two pieces of journals that are sealed.
SEAL_SECONDS = 0.005
# Multiples of the golden ratio are far apart, however many there are.
GOLDEN_RATIO = (5**0.5 - 1) / 2


class HostOwner(Protocol):
    """Who has the lines of a host."""

    def started(self) -> None:
        """A run was started, and begins to load its journals."""

    def loaded(self, seconds: float) -> None:
        """The run has loaded its journals in so long, and got no line."""

    def answered(self, text: str) -> None:
        """The host answered its next line."""

    def ended(self, status: int) -> None:
        """The host ended. What it didn't answer is put again, or isn't."""

    def gave_up(self, status: int) -> None:
        """A new start ends with this status too, until a person has acted; or what fails has to pass first."""


class SealSteps:
    """Seals what a run made durable in steps of the loop, a piece of a journal each: so none of them takes long."""

    def __init__(self, loop: Loop, sealing: SealWriter) -> None:
        self.loop, self.sealing = loop, sealing
        # The shards that are still to be sealed at this look.
        self.left: list[int] = []

    def begin(self) -> None:
        """A look at the run: what came since the last one is sealed, unless that one isn't done."""
        if not self.left:
            self.left = list(self.sealing.durable)
            self.go_on()

    def go_on(self) -> None:
        if self.left and not self.sealing.look_at(self.left[0]):
            del self.left[0]
        if self.left:
            self.loop.call_later(SEAL_SECONDS, self.go_on)

    def end(self) -> None:
        """The run has ended."""
        self.left = []


class Supervisor:
    """A partition's host, one run after another."""

    def __init__(
        self,
        loop: Loop,
        command: Sequence[str],
        journal: str,
        owner: HostOwner,
        name: str,
        moment: Optional[float] = None,
    ) -> None:
        """It looks at each run at a moment of the second; without one, a second after the run's start and so on."""
        self.loop, self.command, self.journal, self.owner = loop, command, journal, owner
        self.moment = moment
        # Who tells of it.
        self.name = name
        self.lifecycle = Lifecycle(limits_of(journal))
        self.run: Optional[HostProcess] = None
        # Lines of this run that have no answer, the probe included.
        self.owed = 0
        # The journals that the first run loaded: no run of this process goes on over other files.
        self.files = FirstJournals(journal)
        self.sealing = SealWriter(journal, name)
        self.seal_steps = SealSteps(loop, self.sealing)
        # Whether a host is started as soon as it may be.
        self.is_needed = False
        # How many waits were begun: an earlier one counts for nothing.
        self.waits = 0

    # What the owner asks and wants

    @property
    def takes_lines(self) -> bool:
        """Whether a host has loaded its journals and takes lines."""
        return self.run is not None and self.run.input.is_open and self.lifecycle.state is HostState.READY

    @property
    def is_full(self) -> bool:
        """Whether this run has to end before its limit of lines or bytes."""
        return self.run is not None and self.run.input.is_full()

    def need(self) -> None:
        """Starts a host if there is none: now, or once a wait is over."""
        self.is_needed = True
        self.act(self.lifecycle.need())

    def unneed(self) -> None:
        """No host is needed any more: none is started once a wait is over."""
        self.is_needed = False

    def put(self, line: bytes) -> None:
        """Gives the run a line. `flush` has it written."""
        assert self.run is not None
        self.owed += 1
        self.run.input.put(line)

    def flush(self) -> None:
        """Writes what was put. A run that is full ends, and the next one begins."""
        if self.run is None:
            return
        self.run.input.flush()
        if self.run.input.is_full():
            self.close()

    def close(self) -> None:
        """Lets the run end: it answers what it has."""
        self.act(self.lifecycle.close(self.clock()))

    def stop(self) -> None:
        """Starts no more hosts, and lets the run end."""
        self.act(self.lifecycle.stop(self.clock()))

    def kill_now(self) -> bool:
        """Kills the run, if there is one, and says so. It has ended when this returns. The owner isn't called."""
        self.waits += 1
        self.is_needed = False
        run, self.run = self.run, None
        if run is not None:
            run.kill_now()
            self.clear()
        self.lifecycle.was_ended()
        return run is not None

    # What the lifecycle decides

    def act(self, actions: Sequence[Action]) -> None:
        for action in actions:
            if isinstance(action, Start):
                self.start()
            elif isinstance(action, Close):
                if self.run is not None:
                    self.run.close_input()
            elif isinstance(action, Kill):
                say(self.name, Level.WARNING, f"the host over {self.journal} is killed: {action.why}")
                if self.run is not None:
                    self.run.kill()
            elif isinstance(action, Wait):
                self.wait(action.seconds)
            elif isinstance(action, GiveUp):
                self.owner.gave_up(action.status)

    def start(self) -> None:
        if self.files.look() is Look.REPLACED:
            say(self.name, Level.ERROR, f"the journals {self.journal} {REPLACED}")
            self.act(self.lifecycle.was_replaced())
            return
        sealing = SealWriter(self.journal, self.name)
        try:
            self.run = HostProcess(self.loop, self.command, self.answered, self.ended)
        except OSError as fault:
            say(self.name, Level.WARNING, f"no host can be started: {fault.strerror}")
            self.act(self.lifecycle.could_not_start())
            return
        self.waits += 1
        self.owed = 0
        self.sealing, self.seal_steps = sealing, SealSteps(self.loop, sealing)
        self.lifecycle.started(self.clock(), limits_of(self.journal))
        self.owner.started()
        self.put(PROBE)
        self.flush()
        self.look_later(self.run)

    def wait(self, seconds: float) -> None:
        self.waits += 1
        number = self.waits

        def over() -> None:
            if number == self.waits:
                self.lifecycle.waited()
                self.start_if_needed()

        self.loop.call_later(seconds, over)

    def start_if_needed(self) -> None:
        if self.is_needed:
            self.act(self.lifecycle.need())

    # The run

    def answered(self, text: str) -> None:
        """Takes an answer of the run."""
        run, is_first = self.run, not self.lifecycle.has_answered
        if self.owed == 0:
            # (this can't be: so nothing that it says can be trusted)
            self.act(self.lifecycle.kill("it gave more answers than it got lines"))
            return
        self.owed -= 1
        self.lifecycle.answered(time.monotonic())
        if not is_first:
            self.sealing.answer(text)
            self.owner.answered(text)
        elif text != PROBE_ANSWER:
            self.act(self.lifecycle.kill(f"it answers `{text}` to a line without a form"))
        elif run is not None:
            self.files.note()
            self.is_needed = False
            self.lifecycle.loaded()
            self.owner.loaded(self.clock() - self.lifecycle.began)

    def ended(self, status: int, stop_line: str) -> None:
        self.run = None
        self.clear()
        if status:
            said = stop_line or "without a last line"
            # (so would the next one end)
            level = Level.ERROR if status in NOT_AGAIN else Level.WARNING
            say(self.name, level, f"the host ended with {status}, {said}: {meaning_of(status)}")
        actions = self.lifecycle.ended(status)
        self.owner.ended(status)
        self.act(actions)
        self.start_if_needed()

    def clear(self) -> None:
        """The run has ended: what it made durable is sealed."""
        self.owed = 0
        self.seal_steps.end()
        self.sealing.look()
        self.sealing.end()

    # Time

    def look_later(self, run: HostProcess) -> None:
        self.loop.call_later(seconds_until(self.moment, self.clock()), lambda: self.look(run))

    def look(self, run: HostProcess) -> None:
        """A look at the run each second."""
        if run is not self.run:
            return
        self.seal_steps.begin()
        sight = self.files.look()
        self.act(self.lifecycle.look(self.clock(), self.owed > 0, sight))
        self.look_later(run)

    @staticmethod
    def clock() -> float:
        return time.monotonic()


def moment_of(partition: int) -> float:
    """The moment of a second at which a partition is looked at: its seals keep no other one's lines waiting."""
    return partition * GOLDEN_RATIO % LOOK_SECONDS


def seconds_until(moment: Optional[float], now: float) -> float:
    """From now to the next such moment of a second; without one, to the next look."""
    wait = LOOK_SECONDS if moment is None else LOOK_SECONDS - (now - moment) % LOOK_SECONDS
    # (a timer may be early by a little)
    return wait if wait > EARLY_SECONDS else wait + LOOK_SECONDS


def limits_of(journal: str) -> Limits:
    """How long a run over these journals may be silent."""
    return Limits(LOAD_SECONDS + bytes_of(journal) / LOAD_BYTES, SILENT_SECONDS, SILENT_SECONDS)


def bytes_of(name: str) -> int:
    """Returns the bytes of all journals that can be seen."""
    try:
        return sum(os.path.getsize(path) for path in journals_of(name))
    except OSError:
        return 0
