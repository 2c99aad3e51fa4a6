"""A switch that sends at a steady rate for long: new decisions, some of them asked again later, and advices.

It sends by the clock, whether or not answers come. Each new decision's answer goes to its card, which checks the
issuer's cryptogram; a repeat has to get the first answer, and an advice has to be acknowledged.
"""
import asyncio
import collections
import time
from dataclasses import dataclass, field
from typing import Any, NamedTuple, Optional

from switch.cards import APPROVED, cards_of, differences, repeat_of, request_of, verdict_of
from switch.link import Link, Place, key_of
from switch.messages import Message
from trials.soak.waits import Waits

# Groups go so many times a second. Of so many messages two are repeats and one is an advice.
GROUPS, SHARE = 20, 20
REPEATS, ADVICES = 2, 1
# One decision of so many is asked again: of twenty messages 17 are new.
ASKED_AGAIN = 9
# A decision is asked again after so long.
AGAIN_SECONDS = 30.0
# What has no answer after so long gets none.
ANSWER_SECONDS = 90.0
ADVICE, REVERSAL = "0120", "0420"
MOST_TOLD = 100


class Tap(NamedTuple):
    """A card's transaction, and its message."""

    card: Any
    request: Any
    message: Message


class Sent(NamedTuple):
    """A message that was sent, as which one, and when."""

    at: float
    serial: int
    message: Message


class Again(NamedTuple):
    """What is asked again from a moment on, and what came first."""

    due: float
    message: Message
    first: Message


@dataclass
class Minute:
    """What a minute of messages came to."""

    sent: int = 0
    fresh: int = 0
    repeats: int = 0
    advices: int = 0
    wrong: int = 0
    waits: Waits = field(default_factory=Waits)


class SteadyLoad:
    """The cards, the connection, and what comes back."""

    def __init__(self, place: Place, config: str, rate: int) -> None:
        self.place, self.rate = place, rate
        self.cards = cards_of(config)
        self.number = 0
        self.again: "collections.deque[Again]" = collections.deque(maxlen=int(2 * AGAIN_SECONDS * rate))
        self.minute = Minute()
        self.acknowledged = 0
        # What was wrong, in words: the first ones of all.
        self.told: list[str] = []
        # What was sent of late, in its order; and what of it has no answer yet.
        self.sent: "collections.deque[Sent]" = collections.deque()
        self.open: set[int] = set()
        self.count = 0
        self.due = 0.0

    async def begin(self) -> None:
        self.links = [await Link.open(self.place) for _ in range(4)]
        self.due = time.monotonic()

    async def run(self, seconds: float) -> Minute:
        """Sends for so long, and returns what came meanwhile."""
        self.minute = Minute()
        end = self.due + seconds
        while self.due < end:
            await asyncio.sleep(max(0.0, self.due - time.monotonic()))
            self.send_group(max(1, self.rate // GROUPS))
            self.due += max(1, self.rate // GROUPS) / self.rate
        self.give_up()
        return self.minute

    async def end(self) -> Minute:
        """Waits for what is in flight."""
        self.minute = Minute()
        limit = time.monotonic() + ANSWER_SECONDS
        while self.open and time.monotonic() < limit:
            await asyncio.sleep(0.05)
        self.give_up(all_of_them=True)
        for link in self.links:
            for stray in link.strays:
                self.is_wrong(f"a response that nobody asked for: {stray}")
            await link.close()
        return self.minute

    # What goes out

    def send_group(self, size: int) -> None:
        now = time.monotonic()
        for _ in range(size):
            self.number += 1
            place = self.number % SHARE
            if place < REPEATS and self.again and self.again[0].due <= now:
                self.repeat(self.again.popleft())
            elif REPEATS <= place < REPEATS + ADVICES:
                self.advise()
            else:
                self.decide()

    def decide(self) -> None:
        card = self.cards[self.number % len(self.cards)]
        request = card.tap(amount=bytes.fromhex(f"{1000 + self.number % 9000:012d}"))
        tap = Tap(card, request, request_of(self.place.codec, request, self.number))
        self.minute.fresh += 1
        self.send(tap.message, lambda response: self.decided(tap, response))

    def repeat(self, one: Again) -> None:
        self.minute.repeats += 1
        self.send(repeat_of(one.message), lambda response: self.repeated(one, response))

    def advise(self) -> None:
        """Sends an advice or a reversal of a transaction that was elsewhere."""
        card = self.cards[self.number % len(self.cards)]
        kind = REVERSAL if self.number // SHARE % 2 else ADVICE
        stan, reference = f"{self.number % 1_000_000:06d}", f"{self.number:012d}"
        message: Message = {"type": kind, 2: card.info.pan, 3: "000000", 4: "000000001250", 7: "0115120000"}
        message |= {11: stan, 12: "120000", 13: "0115", 37: reference, 41: "TERM0001", 49: "978"}
        self.minute.advices += 1
        self.send(message, lambda response: self.advised(message, response))

    def send(self, message: Message, then: Any) -> None:
        began, count = time.monotonic(), self.count
        self.count += 1
        self.minute.sent += 1
        self.open.add(count)
        self.sent.append(Sent(began, count, message))

        def answered(response: Optional[Message]) -> None:
            self.open.discard(count)
            self.minute.waits.add(time.monotonic() - began)
            if response is None:
                self.is_wrong(f"the connection ended before the answer to {message}")
            else:
                then(response)

        link = self.links[count % len(self.links)]
        link.begin(key_of(message), self.place.codec.frame(message), answered)

    # What comes back

    def decided(self, tap: Tap, response: Message) -> None:
        odd = differences(self.place.codec, tap.message, response)
        is_approved = response.get(39) == APPROVED[self.place.codec.edition] and 38 in response and 55 in response
        if odd or not is_approved or not self.is_right(tap, response):
            self.is_wrong(f"{tap.message}: {odd}, {response}")
        elif int(tap.message[37]) % ASKED_AGAIN == 0:
            self.again.append(Again(time.monotonic() + AGAIN_SECONDS, tap.message, response))

    def is_right(self, tap: Tap, response: Message) -> bool:
        """Whether the card takes the issuer's cryptogram."""
        tap.card.open, tap.card.chain = tap.request, None
        return verdict_of(tap.card, self.place.codec, response).is_right

    def repeated(self, one: Again, response: Message) -> None:
        if response != one.first:
            self.is_wrong(f"the repeat of {one.message} got {response}, and {one.first} came first")

    def advised(self, message: Message, response: Message) -> None:
        odd = differences(self.place.codec, message, response)
        if odd or response.get(39) != "00":
            self.is_wrong(f"{message}: {odd}, {response}")
        else:
            self.acknowledged += 1

    def give_up(self, all_of_them: bool = False) -> None:
        """What has waited for too long has no answer."""
        limit = time.monotonic() - (0.0 if all_of_them else ANSWER_SECONDS)
        while self.sent and self.sent[0].at < limit:
            _, count, message = self.sent.popleft()
            if count in self.open:
                self.open.discard(count)
                self.links[count % len(self.links)].asked.pop(key_of(message), None)
                self.is_wrong(f"no answer came to {message}")

    def is_wrong(self, what: str) -> None:
        self.minute.wrong += 1
        if len(self.told) < MOST_TOLD:
            self.told.append(what)
