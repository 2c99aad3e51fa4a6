"""How long answers took, counted by classes of which each is a twentieth longer than the one before."""
import collections
import math
from collections.abc import Iterable

FIRST_MILLISECONDS, STEP = 0.1, math.log(1.05)


class Waits:
    """The counts by class, as a text of a file has them: `12:340 13:7`."""

    def __init__(self, text: str = "") -> None:
        self.counts: "collections.Counter[int]" = collections.Counter()
        for word in text.split():
            number, _, count = word.partition(":")
            self.counts[int(number)] += int(count)

    def add(self, seconds: float) -> None:
        self.counts[max(0, math.ceil(math.log(max(1000 * seconds, 1e-9) / FIRST_MILLISECONDS) / STEP))] += 1

    def part(self, share: float) -> float:
        """Returns the milliseconds that this share of the answers didn't exceed; 0 if there is none."""
        left = share * sum(self.counts.values())
        for number in sorted(self.counts):
            left -= self.counts[number]
            if left <= 0:
                return FIRST_MILLISECONDS * math.exp(STEP * number)
        return 0.0

    def __str__(self) -> str:
        return " ".join(f"{number}:{count}" for number, count in sorted(self.counts.items()))


def all_of(each: Iterable[Waits]) -> Waits:
    found = Waits()
    for one in each:
        found.counts.update(one.counts)
    return found
