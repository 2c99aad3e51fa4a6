"""A load: what many cards' taps make, with so many messages in flight or so many a second, and what came back."""

import asyncio
import random
import time
from dataclasses import dataclass, field
from typing import Any, NamedTuple, Optional

from switch.cards import APPROVED, cards_of, differences, repeat_of, request_of, verdict_of
from switch.link import Key, Link, Place, key_of
from switch.messages import Codec, Message

SAMPLE_SEED = 1
ANSWER_SECONDS = 30.0


class Tap(NamedTuple):
    """A transaction of a card, its message and the frame of that."""

    card: Any
    request: Any
    message: Message
    key: Key
    frame: bytes


@dataclass
class Shares:
    """How many of a hundred messages are repeated late, and how many are sent again with another amount."""

    repeats: int = 0
    changed: int = 0


@dataclass
class Result:
    """What came back."""

    sent: int = 0
    seconds: float = 0.0
    codes: dict[str, int] = field(default_factory=dict)
    unanswered: int = 0
    waits: list[float] = field(default_factory=list)
    right: int = 0
    wrong: list[str] = field(default_factory=list)
    equal_repeats: int = 0
    refused_changes: int = 0

    def rate(self) -> float:
        return self.sent / self.seconds if self.seconds else 0.0

    def wait(self, part: float) -> float:
        """The time that this part of the messages didn't exceed, in milliseconds."""
        ordered = sorted(self.waits)
        return 1000 * ordered[min(int(part * len(ordered)), len(ordered) - 1)] if ordered else 0.0


def taps_of(config: str, codec: Codec, count: int, first: int = 1, first_atc: int = 1) -> list[Tap]:
    """So many taps, of all cards of a configuration in rotation, each card's from an ATC on."""
    cards = cards_of(config)
    for card in cards:
        card.atc = first_atc - 1
    taps = []
    for number in range(first, first + count):
        card = cards[number % len(cards)]
        request = card.tap(amount=bytes.fromhex(f"{1000 + number % 9000:012d}"))
        message = request_of(codec, request, number)
        taps.append(Tap(card, request, message, key_of(message), codec.frame(message)))
    return taps


def changed_of(codec: Codec, tap: Tap, number: int) -> Message:
    """The message of a tap with another amount than its cryptogram covers."""
    request = tap.request._replace(amount=bytes.fromhex("000000999999"))
    return request_of(codec, request, number)


class Load:
    """A run of a load over some connections."""

    def __init__(self, codec: Codec, taps: list[Tap], shares: Shares) -> None:
        self.codec, self.taps, self.shares = codec, taps, shares
        self.responses: list[Optional[Message]] = [None] * len(taps)
        self.result, self.next = Result(), 0
        self.links: list[Link] = []
        self.in_flight = 0
        self.done = asyncio.Event()

    async def run(self, place: Place, connections: int, in_flight: int, rate: float) -> Result:
        self.links = [await Link.open(place) for _ in range(connections)]
        began = time.monotonic()
        if rate:
            await self.send_by_rate(began, rate)
        else:
            for _ in range(min(in_flight, len(self.taps))):
                self.send_next()
        await asyncio.wait_for(self.done.wait(), ANSWER_SECONDS + (len(self.taps) / rate if rate else 600))
        self.result.seconds = time.monotonic() - began
        await self.send_again()
        for link in self.links:
            await link.close()
        self.check()
        return self.result

    def send_next(self) -> None:
        if self.next < len(self.taps):
            self.send(self.next)
            self.next += 1

    def send(self, at: int) -> None:
        tap, began = self.taps[at], time.perf_counter()
        self.in_flight += 1
        self.result.sent += 1

        def answered(response: Optional[Message]) -> None:
            self.result.waits.append(time.perf_counter() - began)
            self.responses[at] = response
            self.in_flight -= 1
            self.send_next()
            if not self.in_flight and self.next == len(self.taps):
                self.done.set()

        self.links[at % len(self.links)].begin(tap.key, tap.frame, answered)

    async def send_by_rate(self, began: float, rate: float) -> None:
        """Sends at so many a second, whether or not answers come."""
        total, self.next = len(self.taps), len(self.taps)
        # (held until all are sent, so that an early answer isn't the end)
        self.in_flight += 1
        for at in range(total):
            wait = began + at / rate - time.monotonic()
            if wait > 0:
                await asyncio.sleep(wait)
            self.send(at)
        self.in_flight -= 1
        if not self.in_flight:
            self.done.set()

    async def send_again(self) -> None:
        """Repeats, and messages with another amount, when later taps of their cards were decided."""
        chance = random.Random(SAMPLE_SEED)
        for at, tap in enumerate(self.taps):
            first, link = self.responses[at], self.links[at % len(self.links)]
            if first is None:
                continue
            if chance.randrange(100) < self.shares.repeats:
                again = await link.ask(repeat_of(tap.message), ANSWER_SECONDS)
                self.result.equal_repeats += again == first
                if again != first:
                    self.result.wrong.append(f"the repeat of {tap.key} got {again}, and {first} came first")
            if chance.randrange(100) < self.shares.changed:
                changed = await link.ask(changed_of(self.codec, tap, len(self.taps) + at + 1), ANSWER_SECONDS)
                is_refused = changed is not None and changed[39] in ("05", "100") and 55 not in changed
                self.result.refused_changes += is_refused
                if not is_refused:
                    self.result.wrong.append(f"{tap.key} with another amount got {changed}")

    def check(self) -> None:
        """Gives each response to its card."""
        result = self.result
        for tap, response in zip(self.taps, self.responses):
            if response is None:
                result.unanswered += 1
                continue
            result.codes[response[39]] = result.codes.get(response[39], 0) + 1
            odd = differences(self.codec, tap.message, response)
            if 55 not in response:
                result.wrong += odd
                continue
            tap.card.open, tap.card.chain = tap.request, None
            verdict = verdict_of(tap.card, self.codec, response)
            is_coded = (response[39] == APPROVED[self.codec.edition]) == (38 in response)
            if verdict.is_right and not odd and is_coded:
                result.right += 1
            else:
                result.wrong.append(f"{tap.key}: {verdict.text}; {odd}; codes {response.get(38)}, {response[39]}")
        for link in self.links:
            result.wrong += [f"a response that nobody asked for: {it}" for it in link.strays]
