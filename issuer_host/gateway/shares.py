"""How much of the room in flight a partition may take that gives no answer."""

from typing import NamedTuple

# A partition that has lines in flight and answers none for so long is stalled.
STALLED_SECONDS = 1.0


class PartitionLoad:
    """The lines of a partition in flight."""

    def __init__(self) -> None:
        self.open = 0
        self.of_source: dict[object, int] = {}
        # When it answered last, or got its first line after a time without any.
        self.heard = 0.0

    def add(self, source: object, now: float) -> None:
        if not self.open:
            self.heard = now
        self.open += 1
        self.of_source[source] = self.of_source.get(source, 0) + 1

    def remove(self, source: object) -> None:
        self.open -= 1
        left = self.of_source[source] - 1
        if left:
            self.of_source[source] = left
        else:
            del self.of_source[source]

    def answered(self, now: float) -> None:
        self.heard = now

    def is_stalled(self, now: float) -> bool:
        return self.open > 0 and now - self.heard > STALLED_SECONDS


class Shares(NamedTuple):
    """So many lines of one partition may be in flight while it is stalled: in all, and of one connection."""

    in_flight: int = 512
    of_connection: int = 128

    def may_be_above(self, load: PartitionLoad) -> bool:
        return load.open > min(self.in_flight, self.of_connection)

    def are_full(self, load: PartitionLoad, source: object) -> bool:
        return load.open >= self.in_flight or load.of_source.get(source, 0) >= self.of_connection

    def are_above(self, load: PartitionLoad, source: object) -> bool:
        return load.open > self.in_flight or load.of_source.get(source, 0) > self.of_connection


def shares_of(in_flight: int, of_connection: int) -> Shares:
    """Half of all room, and half of each connection's."""
    return Shares(max(in_flight // 2, 1), max(of_connection // 2, 1))
