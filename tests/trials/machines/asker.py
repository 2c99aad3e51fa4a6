"""A publisher before a cluster: it asks on at another node where its own is gone."""
import itertools
import time
from collections.abc import Iterable, Iterator, Sequence
from typing import Any, Optional

from issuer_host.broker import topology
from issuer_host.broker.connection import Link
from issuer_host.broker.publisher import OnAnswer
from trials.bridges.patient import PatientAsker
from trials.machines.brokers import HEARTBEAT_SECONDS


PACE_SECONDS = 0.01


class ClusterLink(Link):
    """A connection to one node after another."""

    nodes: "Iterator[Any]"

    def open(self) -> None:
        self.parameters = next(self.nodes)
        super().open()


class ClusterAsker(PatientAsker):
    """A PatientAsker that goes from one node of the cluster to the next, with a reply queue for each connection.

    A reply queue is on one node. While that one is gone, nobody can declare it again.
    """

    def __init__(
        self,
        partitions: int,
        files: Sequence[str],
        window: int = 64,
        seconds: float = 60.0,
        on_answer: Optional[OnAnswer] = None,
    ) -> None:
        super().__init__(partitions, files[0], window, seconds, on_answer)
        link = ClusterLink(self.loop, None, self.steps_of, self.ready, self.lost)
        link.nodes = itertools.cycle(list(map(parameters_of, files)))
        self.link = link


class PacedAsker(ClusterAsker):
    """A ClusterAsker that asks so many lines a second at most, and takes answers between them."""

    def __init__(
        self, partitions: int, files: Sequence[str], seconds: float = 60.0, on_answer: Optional[OnAnswer] = None
    ) -> None:
        super().__init__(partitions, files, seconds=seconds, on_answer=on_answer)
        self.most = self.window
        self.rate = 0.0
        self.paced_from = 0.0
        self.begun = 0
        self.is_pacing = False

    def ask_paced(self, lines: Iterable[str], rate: float) -> Iterator[tuple[str, str]]:
        """The lines with their answers, as `ask_all` has them."""
        self.rate, self.paced_from, self.begun = rate, time.monotonic(), 0
        if not self.is_pacing:
            self.loop.call_later(PACE_SECONDS, self.pace)
        self.is_pacing = True
        return self.ask_all(lines)

    def pace(self) -> None:
        self.is_pacing = self.is_waiting
        if self.is_pacing:
            self.ask_more()
            self.loop.call_later(PACE_SECONDS, self.pace)

    def ask_more(self) -> None:
        """Asks what is due by now, as far as the window allows."""
        before = len(self.asked)
        due = int((time.monotonic() - self.paced_from) * self.rate) + 1 - self.begun
        self.window = min(self.most, before + max(due, 0))
        super().ask_more()
        self.begun += len(self.asked) - before


def parameters_of(file: str) -> Any:
    found = topology.parameters_of(file)
    found.heartbeat = HEARTBEAT_SECONDS
    found.blocked_connection_timeout = 2 * HEARTBEAT_SECONDS
    return found
