"""A publisher's side: publishes request lines to their partitions' queues and waits for the answers.

    with Asker(partitions=4) as asker:
        answer = asker.ask("A 5A08..")
        answer = asker.decline("A 5A08..", 1)
        for line, answer in asker.ask_all(lines):
            ..

`decline` is for a request that its account declines: the card's status is another one for this request alone, one whose
row of the table declines. For `ask_all` such a "line" is `declines.body_of(request, status)`. Its answer is that of the
request, with the issuer's cryptogram.

Each line gets a correlation id. A line that isn't answered in time, or whose connection was lost, is published again
with the same id: the host has one record for it and answers `kept`. So is one whose answer says that nothing was
recorded (`refused 12` and `refused 15`), a moment later. Answers that come again are dropped. An Asker is for one
thread.
"""
import collections
import functools
import random
import time
import uuid
from collections.abc import Callable, Iterable, Iterator
from types import TracebackType
from typing import Optional

from issuer_host.broker import topology
from issuer_host.broker.connection import Confirm, Link
from issuer_host.broker.reply_mac import ReplyMacs
from issuer_host.broker.reply_queue import ReplyQueue
from issuer_host.broker.types import Channel, Delivery, Properties, Step
from issuer_host.facts.answers import is_held
from issuer_host.facts.masks import masked
from issuer_host.facts.partitions import partition_of
from issuer_host.facts.request_lines import pan_of_line
from issuer_host.host.event_loop import new_loop
from issuer_host.host.retry_policy import PUBLISHER_SECONDS
from issuer_host.orders.declines import body_of

AGAIN_SECONDS = 15.0
FULL_SECONDS = 0.5
TICK_SECONDS = 0.5
CLOSE_SECONDS = 2.0
# So many correlation ids are known for answers that come again.
KNOWN = 100_000


class Unanswered(Exception):
    """No answer in time. The line may be recorded all the same: ask again, the answer is then `kept`."""


class PublishedRequest:
    """A line that is asked, and its answer once it came."""

    __slots__ = ("number", "line", "partition", "correlation", "published", "began", "held", "answer")

    def __init__(self, number: int, line: str, partition: int) -> None:
        self.number = number
        self.line = line
        self.partition = partition
        self.correlation = uuid.uuid4().hex
        self.began = time.monotonic()
        self.published = self.began
        # The last answer that said that nothing was recorded.
        self.held = ""
        self.answer = ""


class Known:
    """The correlation ids of the last answers."""

    def __init__(self) -> None:
        self.ended: collections.deque[str] = collections.deque(maxlen=KNOWN)
        self.ids: set[str] = set()

    def add(self, correlation: str) -> None:
        if len(self.ended) == self.ended.maxlen:
            self.ids.discard(self.ended[0])
        self.ended.append(correlation)
        self.ids.add(correlation)


OnAnswer = Callable[[PublishedRequest, str], object]


class Asker:
    def __init__(
        self,
        partitions: int,
        broker_file: Optional[str] = None,
        window: int = 64,
        seconds: float = 60.0,
        on_answer: Optional[OnAnswer] = None,
    ) -> None:
        """`on_answer` is called with the first answer of each question, as it comes."""
        self.partitions = partitions
        self.window = window
        self.seconds = seconds
        self.on_answer = on_answer
        self.loop = new_loop()
        self.macs = ReplyMacs(broker_file)
        # How many answers no bridge wrote.
        self.forged = 0
        parameters = topology.parameters_of(broker_file)
        user = parameters.credentials.username
        self.reply_queue = ReplyQueue(user, random.randrange(topology.REPLY_QUEUES))
        self.link = Link(self.loop, parameters, self.steps_of, self.ready, self.lost)
        self.unasked: Iterator[tuple[int, str]] = iter(())
        # By correlation id.
        self.asked: dict[str, PublishedRequest] = {}
        self.known = Known()
        # How many answers came again, and how many messages were published.
        self.repeats = 0
        self.published = 0
        self.results: collections.deque[PublishedRequest] = collections.deque()
        self.fault: Optional[Exception] = None
        self.is_waiting = False

    def __enter__(self) -> "Asker":
        self.link.open()
        self.tick()
        return self

    def __exit__(
        self,
        kind: Optional[type[BaseException]],
        fault: Optional[BaseException],
        trace: Optional[TracebackType],
    ) -> None:
        self.loop.call_later(CLOSE_SECONDS, self.loop.stop)
        self.link.close(self.loop.stop)
        self.loop.start()

    def ask(self, line: str) -> str:
        return next(self.ask_all([line]))[1]

    def decline(self, request: str, status: int) -> str:
        """Has a request declined by a status, and returns its answer."""
        return self.ask(body_of(request, status))

    def ask_all(self, lines: Iterable[str]) -> Iterator[tuple[str, str]]:
        """The lines with their answers, in the order in which answers come."""
        self.unasked = iter(enumerate(lines))
        self.is_waiting = True
        self.ask_more()
        while self.asked or self.results or self.is_waiting:
            if not self.results:
                self.loop.start()
            if self.fault:
                raise self.fault
            while self.results:
                question = self.results.popleft()
                yield question.line, question.answer

    def steps_of(self, channel: Channel) -> list[Step]:
        return self.reply_queue.steps_of(channel)

    def lost(self, reason: Exception) -> None:
        self.reply_queue.lost()

    def ready(self, channel: Channel) -> None:
        self.reply_queue.read(channel, self.take)
        for question in self.asked.values():
            self.publish(question)
        self.ask_more()

    def ask_more(self) -> None:
        """Asks until the window is full or there are no more lines."""
        while self.link.channel and self.is_waiting and len(self.asked) < self.window:
            found = next(self.unasked, None)
            if found is None:
                self.is_waiting = False
                break
            number, line = found
            question = PublishedRequest(number, line, self.partition_of(line))
            self.asked[question.correlation] = question
            self.publish(question)
        if not self.asked and not self.is_waiting:
            self.loop.stop()

    def partition_of(self, line: str) -> int:
        """Returns the partition that a line goes to: that of its card."""
        return partition_of(pan_of_line(line), self.partitions)

    def publish(self, question: PublishedRequest) -> None:
        question.published = time.monotonic()
        self.published += 1
        body = question.line.encode("ascii")
        self.link.publish(
            topology.REQUESTS,
            str(question.partition),
            body,
            question.correlation,
            lambda how: self.confirmed(question, how),
            reply_to=self.reply_queue.name,
        )

    def confirmed(self, question: PublishedRequest, how: Confirm) -> None:
        if how is Confirm.RETURNED:
            what = f"partition {question.partition} has no queue: is the number of partitions right?"
            self.fail(RuntimeError(what))
        elif how is Confirm.NACKED:
            self.loop.call_later(FULL_SECONDS, lambda: self.publish_again(question))

    def publish_again(self, question: PublishedRequest) -> None:
        if self.link.channel and not question.answer:
            self.publish(question)

    def take(self, _: Channel, __: Delivery, properties: Properties, body: bytes) -> None:
        question = self.asked.get(properties.correlation_id)
        if question is None:
            self.repeats += properties.correlation_id in self.known.ids
            return
        text = self.macs.opened(question.correlation, question.line, body)
        if text is None:
            self.forged += 1
            return
        if is_held(text):
            question.held = text
            self.loop.call_later(PUBLISHER_SECONDS, functools.partial(self.publish_again, question))
            return
        self.finish(question, text)

    def finish(self, question: PublishedRequest, text: str) -> None:
        """A question has its answer."""
        del self.asked[question.correlation]
        self.known.add(question.correlation)
        question.answer = text
        if self.on_answer:
            self.on_answer(question, text)
        self.results.append(question)
        self.ask_more()
        self.loop.stop()

    def tick(self) -> None:
        now = time.monotonic()
        for question in list(self.asked.values()):
            if now - question.began > self.seconds and question.held:
                self.finish(question, question.held)
            elif now - question.began > self.seconds:
                self.fail(Unanswered(self.why_unanswered(question)))
            elif self.link.channel and now - question.published > AGAIN_SECONDS:
                self.publish(question)
        self.loop.call_later(TICK_SECONDS, self.tick)

    def why_unanswered(self, question: PublishedRequest) -> str:
        who = f"line {question.number + 1}, of card {masked(pan_of_line(question.line))}"
        return f"no answer to {who}, in {self.seconds:.0f} s; ask again, and it is `kept` if it was recorded"

    def fail(self, fault: Exception) -> None:
        self.fault = fault
        self.loop.stop()
