"""The lines of a service's log, each with a level; troubles that last are one when they begin, and one when they ended.

A line has the form `NAME: LEVEL: EVENT: DO`. NAME is the service's, with its partition where it runs several; LEVEL is
`error` where nobody is answered until a person acts, `warning` where something passes or is still whole, and `notice`
for what has ended, and for what is as it should be.
"""
import enum
import time
from collections.abc import Callable

from issuer_host.facts.refusal import tell


class Level(enum.Enum):
    """How bad something is."""

    ERROR = "error"
    WARNING = "warning"
    NOTICE = "notice"


def say(name: str, level: Level, event: str) -> None:
    """Tells of something that happens once, or of which others are told each time."""
    tell(name, f"{level.value}: {event}")


class Troubles:
    """The troubles of a service, by what happens."""

    def __init__(self, name: str, clock: Callable[[], float] = time.monotonic) -> None:
        self.name, self.clock = name, clock
        # Since when each lasts.
        self.since: "dict[str, float]" = {}

    def begins(self, event: str, action: str = "", level: Level = Level.WARNING) -> None:
        """An event happens, and it lasts: the first time since it ended it is told, with what to do."""
        if event not in self.since:
            self.since[event] = self.clock()
            say(self.name, level, f"{event}: {action}" if action else event)

    def ends(self, event: str, said: str) -> None:
        """An event has ended, if it had begun: that is told, and how long it lasted."""
        since = self.since.pop(event, None)
        if since is not None:
            say(self.name, Level.NOTICE, f"{said}, after {self.clock() - since:.0f} s")
