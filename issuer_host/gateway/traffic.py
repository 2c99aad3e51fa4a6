"""The lines in flight, each until its answer or its time limit.

Several callers of a host may decide two lines of one card in either order. Then a card's next line waits here for the
answer to its last one. A host with one caller keeps the order by itself.

A partition that gives no answer for a second has its share in flight, and what is above is answered at once: so lines
that wait for one partition leave room for those of the others.
"""

import asyncio
import heapq
from collections.abc import Callable, Sequence
from typing import Optional, Protocol

from issuer_host.facts import answers
from issuer_host.facts.partitions import partition_of
from issuer_host.gateway.figures import GatewayFigures
from issuer_host.gateway.requests import RequestLine
from issuer_host.gateway.shares import PartitionLoad, Shares
from issuer_host.host.lines import Entry


class Question(Entry):
    """A line in flight. `then` is called once: with the answer, or with None if there was none in time."""

    __slots__ = ("number", "request", "partition", "source", "then")

    def __init__(
        self,
        number: int,
        request: RequestLine,
        partition: int,
        source: object,
        began: float,
        then: Callable[[Optional[str]], None],
    ) -> None:
        """`source` is the connection that asks, and `began` when the message's last byte had arrived."""
        super().__init__(request.body.encode("ascii"), began, request.pan)
        self.number, self.request, self.partition, self.source = number, request, partition, source
        self.then = then


class TrafficHost(Protocol):
    """Where a partition's lines go. It calls `answered` or `forgotten` of the traffic once for each that it takes."""

    def takes(self, question: Question) -> bool:
        """Whether a line is put. If not, it is answered at once."""

    def put(self, question: Question) -> None:
        """Takes a line."""

    def withdraw(self, question: Question) -> None:
        """Forgets a line whose time is over, if it wasn't sent yet."""


class Traffic:
    """All lines in flight."""

    def __init__(
        self, loop: asyncio.AbstractEventLoop, seconds: float, is_ordered: bool, figures: GatewayFigures
    ) -> None:
        """`is_ordered`: whether the hosts keep the order of a card's lines by themselves."""
        self.loop, self.seconds, self.is_ordered, self.figures = loop, seconds, is_ordered, figures
        self.hosts: Sequence[TrafficHost] = ()
        self.loads: list[PartitionLoad] = []
        self.shares, self.has_others = Shares(), False
        self.number = 0
        # In the order in which they were asked; and when the time of each is over, also of those that were answered.
        self.open: dict[int, Question] = {}
        self.ends: list[tuple[float, int]] = []
        # Of each card the line at the host, and those that wait for it.
        self.cards: dict[str, dict[int, Question]] = {}

    def begin(self, hosts: Sequence[TrafficHost], shares: Shares) -> None:
        """The hosts of all partitions, and how many lines of one may be in flight that gives no answer."""
        self.hosts, self.shares = hosts, shares
        self.loads = [PartitionLoad() for _ in hosts]
        self.has_others = len(hosts) > 1

    def ask(self, request: RequestLine, source: object, began: float, then: Callable[[Optional[str]], None]) -> None:
        self.number += 1
        now = self.loop.time()
        partition = partition_of(request.pan, len(self.hosts)) if self.has_others else 0
        question = Question(self.number, request, partition, source, began, then)
        load = self.loads[partition]
        if self.has_others and self.is_above(load, source) or not self.hosts[partition].takes(question):
            question.is_over = True
            then(None)
            return
        load.add(source, now)
        self.open[question.number] = question
        heapq.heappush(self.ends, (began + self.seconds, question.number))
        if self.is_ordered or self.is_first(question):
            self.hosts[partition].put(question)

    def is_above(self, load: PartitionLoad, source: object) -> bool:
        """Whether a partition that gives no answer has its share in flight, of a connection or in all."""
        return self.shares.are_full(load, source) and load.is_stalled(self.loop.time())

    def is_first(self, question: Question) -> bool:
        """Whether a line may go to its host: no other one of its card is there."""
        queue = self.cards.setdefault(question.request.pan, {})
        queue[question.number] = question
        return len(queue) == 1

    def answered(self, question: Question, text: str) -> None:
        """A host's answer."""
        self.loads[question.partition].answered(self.loop.time())
        self.figures.answered(question.partition, answers.kind_of(text))
        if question.is_over:
            self.figures.late += 1
        else:
            self.end(question, text)
        if not self.is_ordered:
            self.forgotten(question)

    def forgotten(self, question: Question) -> None:
        """No answer to this line will come any more: the card's next one goes."""
        if self.is_ordered:
            return
        queue = self.cards.get(question.request.pan, {})
        queue.pop(question.number, None)
        if queue:
            following = next(iter(queue.values()))
            self.hosts[following.partition].put(following)
        else:
            self.cards.pop(question.request.pan, None)

    def end(self, question: Question, text: Optional[str]) -> None:
        question.is_over = True
        del self.open[question.number]
        self.loads[question.partition].remove(question.source)
        question.then(text)

    # Time

    def expire(self) -> None:
        """Ends the lines whose time is over, and those above the share of a partition that gives no answer."""
        now = self.loop.time()
        while self.ends and self.ends[0][0] <= now:
            question = self.open.get(heapq.heappop(self.ends)[1])
            if question is not None:
                self.figures.expired += 1
                self.give_up(question)
        for partition, load in enumerate(self.loads):
            if self.has_others and self.shares.may_be_above(load) and load.is_stalled(now):
                self.shed(partition)

    def shed(self, partition: int) -> None:
        """Ends the last lines of a partition above its shares."""
        load = self.loads[partition]
        for question in [it for it in reversed(self.open.values()) if it.partition == partition]:
            if self.shares.are_above(load, question.source):
                self.give_up(question)

    def give_up_partition(self, partition: int) -> None:
        for question in [it for it in self.open.values() if it.partition == partition]:
            self.give_up(question)

    def give_up(self, question: Question) -> None:
        if question.is_over:
            return
        self.end(question, None)
        queue = self.cards.get(question.request.pan, {})
        if self.is_ordered or next(iter(queue), None) == question.number:
            self.hosts[question.partition].withdraw(question)
        else:
            queue.pop(question.number, None)
