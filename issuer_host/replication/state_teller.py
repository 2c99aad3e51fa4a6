"""What a partition of a node reports of its state: lines of the log, and figures."""
import time
from typing import NamedTuple

from issuer_host.broker.unacknowledged import Flight
from issuer_host.commands.entry import without_cards
from issuer_host.facts.troubles import Level, say
from issuer_host.replication.rule_events import State
from issuer_host.telling.figures import Figures
from issuer_host.facts.limited import LimitedTelling

# In these states a machine does its part.
FOLLOWING = (State.WAITING.value, State.BEGINNING.value, State.SERVING.value)
# Bytes of a reason that the broker is told.
REASON = 200
# In these states a partition is well; from then on each reason is told again.
SETTLED = (State.WAITING.value, State.SERVING.value)
# In this one nobody is served from here until a person acts.
ERROR_STATES = {"stopped": Level.ERROR}
# So many states with reasons are remembered.
MOST_TOLD = 50


class ReplicaState(NamedTuple):
    """Where a replica is in its stream: what was read, what it needs on, and whether records wait to count."""

    read: int
    needed: int
    is_serving: bool
    counted: int
    uncounted: int


class StateTeller:
    """Reports a state when it is new, or is so for another reason; and the figures of it."""

    def __init__(self, name: str, figures: Figures) -> None:
        self.name, self.figures = name, figures
        self.limited = LimitedTelling(lambda text: say(self.name, Level.WARNING, text))
        self.state = self.why = ""
        # What was told since the partition was well.
        self.told: "set[str]" = set()
        # How many records counted at the last look, and when one counted last, or none waited to.
        self.counted = 0
        self.moved = time.monotonic()

    def tell(self, state: str, why: str = "") -> None:
        """Tells a state or a reason that is new. Two by turns are told once each, until the partition is well again."""
        if state == self.state and (not why or why == self.why):
            return
        self.figures.following.set(state in FOLLOWING)
        said = f"{state}: {why}" if why else state
        if state in SETTLED and state != self.state or len(self.told) == MOST_TOLD:
            self.told.clear()
        if said not in self.told:
            self.told.add(said)
            say(self.name, ERROR_STATES.get(state, Level.WARNING if why else Level.NOTICE), said)
        self.state, self.why = state, why

    def has_told(self, reason: str) -> bool:
        """Whether what the broker says is what this partition closed the connection for."""
        return bool(self.why) and self.why[:REASON] in reason

    def look(self, now: float, found: ReplicaState, flight: Flight) -> None:
        """Sets the figures."""
        self.figures.in_flight.set(len(flight))
        self.figures.oldest.set(flight.age(now))
        self.figures.read.set(found.read)
        self.figures.needed.set(found.needed)
        if not found.is_serving or not found.uncounted or found.counted != self.counted:
            self.moved = now
        self.counted = found.counted
        self.figures.uncounted.set(now - self.moved)
        self.figures.serving.set(found.is_serving)

    def passed_over(self, stream: str, offset: int, why: str) -> None:
        """Reports a message that no node wrote: a person finds out who writes there."""
        self.figures.passed_over.inc()
        # (what is wrong may have a piece of the message)
        said = f"message {offset} of {stream} is passed over, as no node wrote it: {without_cards(why)}"
        self.limited.tell(said)

    def connected(self, is_connected: bool) -> None:
        self.figures.connected.set(is_connected)

    def lost(self) -> None:
        """The connection was lost."""
        self.figures.losses.inc()

    def ended(self) -> None:
        """What ran over the journals has ended: nothing waits, and nobody is served from here."""
        self.moved = time.monotonic()
        for figure in (self.figures.uncounted, self.figures.serving, self.figures.in_flight, self.figures.oldest):
            figure.set(0)

    def stopped(self, why: str) -> None:
        self.figures.stop(without_cards(why))
