"""A partition's host on this machine, by pipes: requests, accounts' declines and orders go to one supervised host."""

import asyncio
from collections.abc import Callable
from typing import Optional

from issuer_host.facts.statuses import NOT_AGAIN
from issuer_host.host.asyncio_loop import AsyncioLoop
from issuer_host.gateway.figures import PartitionFigures
from issuer_host.gateway.traffic import Question, Traffic
from issuer_host.host.line_host import HostSettings
from issuer_host.host.lines import Entry
from issuer_host.orders.order import Order
from issuer_host.orders.partition_host import PartitionHost


class PipeHost:
    """The host of a partition."""

    def __init__(
        self, loop: asyncio.AbstractEventLoop, settings: HostSettings, traffic: Traffic, figures: PartitionFigures
    ) -> None:
        self.loop, self.traffic, self.figures = loop, traffic, figures
        self.serving = PartitionHost(AsyncioLoop(loop), settings, figures, self, self)
        self.serving.is_served = True
        # The status of a run that a person has to see to, until another one is ready.
        self.refusal: Optional[int] = None
        # Done once the first run is ready, or has ended.
        self.tried: asyncio.Future[None] = loop.create_future()
        self.ended: asyncio.Future[None] = loop.create_future()

    # What the traffic asks

    def takes(self, question: Question) -> bool:
        """Whether a line is put: not where a person has to act, and rarely where the disk takes no record."""
        if self.refusal is not None:
            return False
        retries = self.serving.retries
        return retries.full_since is None or question.request.is_repeat or retries.may_try(self.loop.time())

    def put(self, question: Question) -> None:
        self.serving.put(question)

    def withdraw(self, question: Question) -> None:
        if self.serving.hosting.lines.withdraw(question):
            self.traffic.forgotten(question)

    # What the host's work comes to

    def send(self, entry: Entry, text: str) -> None:
        if isinstance(entry, Question):
            self.traffic.answered(entry, text)

    def drop(self, entry: Entry) -> None:
        if isinstance(entry, Question):
            self.traffic.forgotten(entry)

    def is_current(self, entry: Entry) -> bool:
        return not entry.is_over

    # What becomes of the host

    def host_is_ready(self) -> None:
        self.refusal = None
        self.was_tried()

    def host_is_idle(self) -> None:
        if self.serving.is_stopping and self.serving.has_ended() and not self.ended.done():
            self.ended.set_result(None)

    def host_ended(self) -> None:
        """The next one is started, also if no line waits: so the next message finds the journals loaded."""
        self.was_tried()
        self.serving.hosting.want()

    def give_up(self, status: int) -> None:
        """A run that a person has to see to: its messages get no answer until another one is ready."""
        if status in NOT_AGAIN:
            self.refusal = status
            self.traffic.give_up_partition(self.figures.partition)
        self.was_tried()

    def why_no_order(self) -> str:
        return "a person has to see to the partition's host" if self.refusal is not None else ""

    def was_tried(self) -> None:
        if not self.tried.done():
            self.tried.set_result(None)

    # Orders

    def has_host(self) -> bool:
        return self.serving.has_host()

    def order(self, order: Order, uid: int, reply: Callable[[str], object]) -> None:
        self.serving.order(order, uid, reply)

    def probe(self, number: str, reply: Callable[[str], object]) -> None:
        self.serving.orders.on_probe(number, reply)

    # What the gateway calls

    def start(self) -> None:
        self.serving.orders.open()
        self.serving.hosting.want()

    def look(self) -> None:
        """Is called every second."""
        self.serving.look()

    def stop(self) -> None:
        """Ends in order: the run answers what it has, and nothing follows it."""
        self.serving.stop()
        self.host_is_idle()

    def end(self) -> None:
        """Kills a run that hasn't ended in time."""
        self.serving.end()
