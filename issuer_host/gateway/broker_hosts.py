"""Partitions whose hosts are behind the broker: a thread has the connection, and all partitions share it.

The bridges put a line again after `refused 12` and `refused 15`, and start their hosts; here lines go out and answers
come in. A line whose time is over is forgotten: its answer, if one comes, is dropped.
"""

import asyncio
import collections
import math
import threading
import time
from collections.abc import Callable
from typing import Optional

from issuer_host.broker.publisher import Asker, PublishedRequest as Published
from issuer_host.broker.types import Channel, Delivery, Properties
from issuer_host.facts.answers import kind_of
from issuer_host.gateway.figures import GatewayFigures
from issuer_host.gateway.log import Limited, notice
from issuer_host.gateway.traffic import Question, Traffic
from issuer_host.host.retry_policy import RetryPolicy

END_SECONDS = 2.0


class LiveAsker(Asker):
    """An asker that gets lines at any time, and gives each answer to `on_answer`. All its calls are its thread's."""

    def __init__(self, partitions: int, broker_file: str, connection: "BrokerConnection") -> None:
        super().__init__(partitions, broker_file, seconds=math.inf)
        self.connection = connection
        self.limited = Limited()

    def ready(self, channel: Channel) -> None:
        super().ready(channel)
        self.connection.from_thread(self.connection.connected, True)

    def lost(self, reason: Exception) -> None:
        super().lost(reason)
        self.limited.tell(f"no connection to the broker: {reason!r}")
        self.connection.from_thread(self.connection.connected, False)

    def ask_more(self) -> None:
        """Lines come by `begin` alone."""

    def begin(self, question: Question) -> None:
        found = Published(question.number, question.request.body, question.partition)
        self.asked[found.correlation] = found
        self.connection.published[question.number] = found.correlation
        if self.link.channel:
            self.publish(found)

    def forget(self, question: Question) -> None:
        self.asked.pop(self.connection.published.pop(question.number, ""), None)

    def take(self, _: Channel, __: Delivery, properties: Properties, body: bytes) -> None:
        found = self.asked.get(properties.correlation_id)
        if found is None:
            return
        text = self.macs.opened(found.correlation, found.line, body)
        if text is None:
            self.limited.tell("an answer came that no bridge wrote: it is dropped")
            return
        del self.asked[found.correlation]
        self.connection.published.pop(found.number, None)
        self.connection.came.append((found.number, text))
        self.connection.wake()

    def fail(self, fault: Exception) -> None:
        self.limited.tell(str(fault))


class BrokerConnection:
    """The thread with its asker, and what it shares with the gateway's loop."""

    def __init__(
        self,
        loop: asyncio.AbstractEventLoop,
        partitions: int,
        broker_file: str,
        traffic: Traffic,
        figures: GatewayFigures,
    ) -> None:
        self.loop, self.traffic, self.figures = loop, traffic, figures
        # Whether the disks of the bridges take records, by their answers.
        self.policies = [RetryPolicy() for _ in range(partitions)]
        # Lines at the broker: the gateway's own, and in the thread their correlation ids.
        self.asked: dict[int, Question] = {}
        self.published: dict[int, str] = {}
        self.came: collections.deque[tuple[int, str]] = collections.deque()
        self.is_waking = self.is_ending = False
        self.tried: asyncio.Future[None] = loop.create_future()
        self.ended: asyncio.Future[None] = loop.create_future()
        self.asker = LiveAsker(partitions, broker_file, self)
        self.thread = threading.Thread(target=self.work, name="broker", daemon=True)

    # In the thread

    def work(self) -> None:
        self.asker.link.open()
        self.asker.tick()
        self.asker.loop.start()
        self.from_thread(self.ended.set_result, None)

    def from_thread(self, call: Callable[..., None], *words: object) -> None:
        try:
            self.loop.call_soon_threadsafe(call, *words)
        except RuntimeError:
            # (the gateway's loop has ended)
            pass

    def wake(self) -> None:
        """Has the gateway's loop take what came, once for all that came since it last did."""
        if not self.is_waking:
            self.is_waking = True
            self.from_thread(self.take)

    # In the gateway's loop

    def start(self) -> None:
        if not self.thread.is_alive():
            self.thread.start()

    def connected(self, is_connected: bool) -> None:
        if is_connected:
            notice("the broker is connected")
        self.figures.host_up[:] = [int(is_connected)] * len(self.figures.host_up)
        if not self.tried.done():
            self.tried.set_result(None)

    def begin(self, question: Question) -> None:
        self.asked[question.number] = question
        self.asker.loop.add_callback_threadsafe(lambda: self.asker.begin(question))

    def forget(self, question: Question) -> None:
        if self.asked.pop(question.number, None) is not None:
            self.asker.loop.add_callback_threadsafe(lambda: self.asker.forget(question))
            self.traffic.forgotten(question)

    def take(self) -> None:
        self.is_waking = False
        while self.came:
            number, text = self.came.popleft()
            question = self.asked.pop(number, None)
            if question is not None:
                self.policies[question.partition].note(kind_of(text), time.monotonic())
                self.traffic.answered(question, text)

    def stop(self) -> None:
        if self.is_ending:
            return
        self.is_ending = True
        loop = self.asker.loop
        loop.add_callback_threadsafe(lambda: loop.call_later(END_SECONDS, loop.stop))
        loop.add_callback_threadsafe(lambda: self.asker.link.close(loop.stop))


class BrokeredHost:
    """A partition behind the broker."""

    refusal: Optional[int] = None

    def __init__(self, connection: BrokerConnection, partition: int) -> None:
        self.connection, self.partition = connection, partition
        self.tried, self.ended = connection.tried, connection.ended

    def start(self) -> None:
        self.connection.start()

    def takes(self, question: Question) -> bool:
        """Whether a line is put: rarely where the bridge's disk takes no record."""
        policy = self.connection.policies[self.partition]
        return policy.full_since is None or question.request.is_repeat or policy.may_try(time.monotonic())

    def put(self, question: Question) -> None:
        self.connection.begin(question)

    def withdraw(self, question: Question) -> None:
        self.connection.forget(question)

    def look(self) -> None:
        """The bridges look after their hosts."""

    def stop(self) -> None:
        self.connection.stop()

    def end(self) -> None:
        """The bridges end their hosts."""


def brokered_hosts(
    loop: asyncio.AbstractEventLoop, partitions: int, broker_file: str, traffic: Traffic, figures: GatewayFigures
) -> list[BrokeredHost]:
    """A host for each partition, all by one connection."""
    connection = BrokerConnection(loop, partitions, broker_file, traffic, figures)
    return [BrokeredHost(connection, number) for number in range(partitions)]
