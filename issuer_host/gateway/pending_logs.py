"""The partitions' logs that have lines to write: they are written once for a moment, before an answer leaves."""
import asyncio
from typing import Optional

from issuer_host.host.event_loop import Action


# After so long they are written though no answer leaves. (One that leaves at once then needs no further turn.)
LATER_SECONDS = 0.001


class PendingLogs:
    """What writes each such log."""

    def __init__(self, loop: asyncio.AbstractEventLoop) -> None:
        self.loop = loop
        self.actions: "list[Action]" = []
        self.timer: Optional[asyncio.TimerHandle] = None

    def later(self, action: Action) -> None:
        """Has a log written: when an answer leaves, or else in a moment."""
        if not self.actions:
            self.timer = self.loop.call_later(LATER_SECONDS, self.write)
        self.actions.append(action)

    def write(self) -> None:
        if self.timer is not None:
            self.timer.cancel()
            self.timer = None
        actions, self.actions = self.actions, []
        for action in actions:
            action()
