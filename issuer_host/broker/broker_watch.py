"""What becomes of a broker's node that somebody looks at: what is done by itself, and what a person is told.

Three things happen to a node that no other part of the broker mends:

- it goes on without the others, after its machine stood still: it is started again
- it hangs in its start, while the others run: it is killed, and its service manager starts it again
- it runs in a cluster of its own, since its disk was new: a person replaces it, by the command that is said
"""
import enum
from collections.abc import Callable
from typing import Optional

from issuer_host.broker.redundancy import Redundancy

# A node that doesn't run is left for so long while the others do, and twice as long after each time that it was killed.
HUNG_SECONDS, LAST_SECONDS = 60.0, 600.0


class Act(enum.Enum):
    """What is done about a node."""

    NOTHING = "nothing"
    START_AGAIN = "the broker's node goes on without the others: it is started again"
    KILL = "the broker's node doesn't run, and the others do: it is killed"
    TELL_ALONE = "the broker's node runs in a cluster of its own"


# Whether another node runs, which may be asked by its name.
Runs = Callable[[str], bool]


class BrokerWatch:
    """What was seen of a node until now."""

    def __init__(self, hung_seconds: float = HUNG_SECONDS) -> None:
        self.first_seconds = self.hung_seconds = hung_seconds
        # Since when it hasn't run, though others do; and the others, which one that hangs can't name.
        self.since: Optional[float] = None
        self.others: tuple[str, ...] = ()
        self.is_alone = False

    def look(self, now: float, seen: Optional[Redundancy], runs: Runs) -> Act:
        """Returns what to do about a node, by what it sees; by nothing if it doesn't answer."""
        if seen is not None and seen.others():
            self.others = seen.others()
        if seen is None or not seen.runs:
            return self.look_at_hung(now, runs)
        self.since, self.hung_seconds = None, self.first_seconds
        if seen.has_lost_all():
            return Act.START_AGAIN
        was_alone, self.is_alone = self.is_alone, seen.is_of_its_own()
        return Act.TELL_ALONE if self.is_alone and not was_alone else Act.NOTHING

    def look_at_hung(self, now: float, runs: Runs) -> Act:
        """Returns whether a node that doesn't run is killed."""
        if not any(runs(other) for other in self.others):
            self.since = None
            return Act.NOTHING
        if self.since is None:
            self.since = now
        if now - self.since < self.hung_seconds:
            return Act.NOTHING
        self.since, self.hung_seconds = None, min(2 * self.hung_seconds, LAST_SECONDS)
        return Act.KILL
