"""When a host is started, closed, killed and started again: a state machine without a process and without a clock.

A supervisor reports what happened, and when. It does what is returned, in that order. `TABLE` has all transitions: an
event that a state has no row for changes nothing.
"""
from enum import Enum
from typing import NamedTuple, Optional, Union

from issuer_host.facts.statuses import NOT_AGAIN, Status
from issuer_host.files.open_journals import Look

# A host that can't start is tried again after twice as long each time.
FIRST_DELAY = 0.02
LAST_DELAY = 2.0
# How soon a host is tried again that a person has to see to.
PERSON_DELAY = 5.0
# The journals can't be seen in so many looks, one each second, before the host is ended for it.
FAILED_LOOKS = 5
# A run ends in order with these.
IN_ORDER = (Status.OK, Status.TOO_LONG)


class HostState(Enum):
    """What there is of a host."""

    # No process: one is started once it is needed.
    ABSENT = "absent"
    # A process is about to be made.
    STARTING = "starting"
    # It hasn't loaded its journals.
    LOADING = "loading"
    READY = "ready"
    # Its input is closed: it answers what it has, and ends.
    CLOSING = "closing"
    # It was killed, and its end is awaited.
    KILLED = "killed"
    # No process, and none is started until the wait is over.
    WAITING = "waiting"
    # No process is started any more.
    STOPPED = "stopped"


class Event(Enum):
    """What happens to a host."""

    NEEDED = "needed"
    STARTED = "started"
    LOADED = "loaded"
    CLOSE = "close"
    KILL = "kill"
    # The run ended in order, or was ended so that the owner may start the next one at once.
    ENDED = "ended"
    # The run ended otherwise, or couldn't be started.
    FAILED = "failed"
    WAITED = "waited"
    STOP = "stop"


TABLE: "dict[HostState, dict[Event, HostState]]" = {
    HostState.ABSENT: {Event.NEEDED: HostState.STARTING, Event.STOP: HostState.STOPPED},
    HostState.STARTING: {
        Event.STARTED: HostState.LOADING,
        Event.FAILED: HostState.WAITING,
        Event.STOP: HostState.STOPPED,
    },
    HostState.LOADING: {
        Event.LOADED: HostState.READY,
        Event.CLOSE: HostState.CLOSING,
        Event.KILL: HostState.KILLED,
        Event.ENDED: HostState.ABSENT,
        Event.FAILED: HostState.WAITING,
        Event.STOP: HostState.CLOSING,
    },
    HostState.READY: {
        Event.CLOSE: HostState.CLOSING,
        Event.KILL: HostState.KILLED,
        Event.ENDED: HostState.ABSENT,
        Event.FAILED: HostState.WAITING,
        Event.STOP: HostState.CLOSING,
    },
    HostState.CLOSING: {Event.KILL: HostState.KILLED, Event.ENDED: HostState.ABSENT, Event.FAILED: HostState.WAITING},
    HostState.KILLED: {Event.ENDED: HostState.ABSENT, Event.FAILED: HostState.WAITING},
    HostState.WAITING: {Event.WAITED: HostState.ABSENT, Event.ENDED: HostState.ABSENT, Event.STOP: HostState.STOPPED},
    HostState.STOPPED: {},
}
# In these there is a process, and in these it may still be killed.
RUNNING = (HostState.LOADING, HostState.READY, HostState.CLOSING, HostState.KILLED)
ALIVE = (HostState.LOADING, HostState.READY, HostState.CLOSING)


class Limits(NamedTuple):
    """How long a run may be silent, in seconds: until its first answer, after that, and once its input is closed."""

    loading: float
    answering: float
    closing: float


class Start(NamedTuple):
    """A process is made."""


class Close(NamedTuple):
    """The process's input is closed."""


class Kill(NamedTuple):
    """The process is killed, and the log says why."""

    why: str


class Wait(NamedTuple):
    """After so many seconds the wait is over."""

    seconds: float


class GiveUp(NamedTuple):
    """A new start ends with this status too, until a person has acted or what passes has passed."""

    status: int


Action = Union[Start, Close, Kill, Wait, GiveUp]


class Lifecycle:
    """A partition's host, one run after another."""

    def __init__(self, limits: Limits) -> None:
        self.limits = limits
        self.state = HostState.ABSENT
        self.is_stopping = False
        # When the run was started, when its last answer came, and when its input was closed.
        self.began = self.answered_at = self.closed_at = 0.0
        # When it last had nothing to answer, or answered.
        self.heard = 0.0
        self.has_answered = False
        self.delay = 0.0
        self.failed_looks = 0
        # The status that this run was ended for, if a person has to act.
        self.given_up: Optional[int] = None

    @property
    def is_running(self) -> bool:
        return self.state in RUNNING

    def enter(self, event: Event, *actions: Action) -> "list[Action]":
        """Takes a transition. Returns the actions if there is one, and nothing if there isn't."""
        following = TABLE[self.state].get(event)
        if following is None:
            return []
        self.state = following
        return list(actions)

    # What the owner wants

    def need(self) -> "list[Action]":
        """A host is needed: one is started if none is there and no wait is on."""
        return self.enter(Event.NEEDED, Start())

    def close(self, now: float) -> "list[Action]":
        """The run has all its lines."""
        if self.state in (HostState.LOADING, HostState.READY):
            self.closed_at = now
        return self.enter(Event.CLOSE, Close())

    def kill(self, why: str) -> "list[Action]":
        return self.enter(Event.KILL, Kill(why))

    def stop(self, now: float) -> "list[Action]":
        """No host is started any more, and one that runs answers what it has."""
        self.is_stopping = True
        if self.state in (HostState.LOADING, HostState.READY):
            self.closed_at = now
            return self.enter(Event.STOP, Close())
        return self.enter(Event.STOP)

    def was_ended(self) -> None:
        """The owner has ended the run, and its process is gone."""
        self.enter(Event.ENDED)
        self.settle()

    # What happened to the run

    def started(self, now: float, limits: Limits) -> None:
        self.limits, self.began = limits, now
        self.heard = self.answered_at = now
        self.has_answered, self.failed_looks, self.given_up = False, 0, None
        self.enter(Event.STARTED)

    def could_not_start(self) -> "list[Action]":
        """The system made no process."""
        return self.enter(Event.FAILED, Wait(self.longer_delay()))

    def was_replaced(self) -> "list[Action]":
        """The journals aren't the files that the first run wrote: no run is started over them."""
        return self.enter(Event.FAILED, Wait(PERSON_DELAY), GiveUp(Status.REFUSED))

    def answered(self, now: float) -> None:
        self.heard = self.answered_at = now
        self.has_answered = True

    def loaded(self) -> None:
        """The probe was answered as it has to be."""
        self.delay = 0.0
        self.enter(Event.LOADED)

    def ended(self, status: int) -> "list[Action]":
        """The process ended by itself, or was killed."""
        if status in NOT_AGAIN:
            actions = self.enter(Event.FAILED, Wait(PERSON_DELAY), GiveUp(status))
        elif self.given_up is not None:
            actions = self.enter(Event.FAILED, Wait(PERSON_DELAY if self.given_up in NOT_AGAIN else LAST_DELAY))
        elif status in IN_ORDER:
            actions = self.enter(Event.ENDED)
        else:
            actions = self.enter(Event.FAILED, Wait(self.longer_delay()))
        self.settle()
        return actions

    def settle(self) -> None:
        if self.is_stopping:
            self.enter(Event.STOP)

    def longer_delay(self) -> float:
        self.delay = min(max(2 * self.delay, FIRST_DELAY), LAST_DELAY)
        return self.delay

    # Time

    def waited(self) -> None:
        """The wait is over."""
        self.enter(Event.WAITED)

    def look(self, now: float, is_owed: bool, sight: Look) -> "list[Action]":
        """A look each second: whether answers are owed, and what was seen of the journals."""
        if not is_owed:
            self.heard = now
        if self.state not in ALIVE:
            return []
        return self.judge_journals(sight) or self.judge_time(now)

    def judge_journals(self, sight: Look) -> "list[Action]":
        """Ends a run whose journals were replaced, or can't be seen for long: a careful start looks at them then."""
        self.failed_looks = self.failed_looks + 1 if sight is Look.FAILED else 0
        if sight is Look.REPLACED:
            why, status = "its journals were moved or replaced: put back the files that it began with", Status.REFUSED
        elif self.failed_looks >= FAILED_LOOKS:
            why, status = "its journals can't be seen any more: a new start looks at them", Status.PASSES
        else:
            return []
        self.given_up = status
        return [*self.kill(why), GiveUp(status)]

    def judge_time(self, now: float) -> "list[Action]":
        """Kills a run that is silent for too long."""
        if self.state is HostState.CLOSING:
            if now - max(self.closed_at, self.answered_at) > self.limits.closing:
                return self.kill("it doesn't end, though its input was closed")
            return []
        silent = self.limits.answering if self.has_answered else self.limits.loading
        return self.kill("it has been silent for too long") if now - self.heard > silent else []
