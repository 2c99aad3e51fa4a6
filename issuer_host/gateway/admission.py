"""Who is let in at the gateway's port: a limit in all, shares of addresses, and so many TLS handshakes at a time.

A socket is counted when it is accepted, and costs next to nothing until its first byte. Then it waits for one of the
handshakes, and has no buffer before it gets one. Nothing here reads a socket or a clock.
"""

import enum
from collections.abc import Iterator
from dataclasses import dataclass, field
from typing import Optional

# An address has this part at most of the handshakes, and of the sockets that may be silent: so others have some too.
PART_OF_ADDRESS = 4

TOO_MANY = "too many connections"
TOO_MANY_OF_ADDRESS = "too many connections of an address"
REPLACED = "silent while others came"
NO_FIRST_BYTE = "no first byte in time"
NO_HANDSHAKE = "no handshake was free in time"
BAD_HANDSHAKE = "the handshake failed"
BAD_NAME = "its certificate has no accepted name"
REASONS = (TOO_MANY, TOO_MANY_OF_ADDRESS, REPLACED, NO_FIRST_BYTE, NO_HANDSHAKE, BAD_HANDSHAKE, BAD_NAME)


class Stage(enum.Enum):
    """How far a socket has come."""

    SILENT = "silent"
    WAITING = "waiting for a handshake"
    SHAKING = "in its handshake"
    OPEN = "open"
    ENDED = "ended"


class Arrival:
    """A socket that was accepted, and since when it is in its stage."""

    __slots__ = ("address", "since", "stage")

    def __init__(self, address: str, since: float) -> None:
        self.address, self.since, self.stage = address, since, Stage.SILENT


@dataclass
class PortLimits:
    """What bounds the port. With `silent_seconds` 0 a socket may be silent for ever.

    Of the sockets that have sent nothing one more than `silent` takes the place of the oldest.
    """

    connections: int
    of_address: int
    handshakes: int
    silent: int
    silent_seconds: float
    handshake_seconds: float


@dataclass
class Share:
    """What an address has of the port."""

    silent: dict[Arrival, None] = field(default_factory=dict)
    waiting: dict[Arrival, None] = field(default_factory=dict)
    shaking: int = 0
    open: int = 0

    @property
    def connections(self) -> int:
        return len(self.waiting) + self.shaking + self.open


def part_of(most: int) -> int:
    """What an address may have of so many."""
    return max(most // PART_OF_ADDRESS, 1)


class Admission:
    """All sockets of the port, by address."""

    def __init__(self, limits: PortLimits, has_handshakes: bool) -> None:
        self.limits, self.has_handshakes = limits, has_handshakes
        self.shares: dict[str, Share] = {}
        # The silent ones of all addresses, the oldest first, and the addresses of waiting ones, the next one first.
        self.silent: dict[Arrival, None] = {}
        self.turns: dict[str, None] = {}
        self.shaking = self.connections = 0

    # What happens to a socket

    def arrive(self, address: str, now: float) -> Arrival:
        """A socket was accepted: it is silent. `why_full` says whether there is room for it."""
        arrival = Arrival(address, now)
        self.silent[arrival] = None
        self.share_of(address).silent[arrival] = None
        return arrival

    def why_full(self, address: str) -> str:
        """Why no connection of this address is taken now; nothing if one is."""
        if self.connections >= self.limits.connections:
            return TOO_MANY
        share = self.shares.get(address)
        return TOO_MANY_OF_ADDRESS if share is not None and share.connections >= self.limits.of_address else ""

    def surplus(self, address: str) -> Optional[Arrival]:
        """The silent socket that makes room, if there are too many of this address or in all."""
        share, most = self.shares.get(address), self.limits.silent
        if share is not None and len(share.silent) > part_of(most):
            return next(iter(share.silent))
        return next(iter(self.silent)) if len(self.silent) > most else None

    def oldest_silent(self) -> Optional[Arrival]:
        return next(iter(self.silent), None)

    def speak(self, arrival: Arrival, now: float) -> str:
        """A first byte came: the socket is a connection from now on. Returns why it can't be one, or nothing."""
        why = self.why_full(arrival.address)
        self.forget(arrival)
        if why:
            return why
        share = self.share_of(arrival.address)
        self.connections += 1
        arrival.since = now
        if self.has_handshakes:
            arrival.stage = Stage.WAITING
            share.waiting[arrival] = None
            self.turns.setdefault(arrival.address)
        else:
            arrival.stage = Stage.OPEN
            share.open += 1
        return ""

    def next_handshake(self, now: float) -> Optional[Arrival]:
        """The socket whose handshake begins now: addresses take turns. None if no handshake is free."""
        most = part_of(self.limits.handshakes)
        if self.shaking >= self.limits.handshakes:
            return None
        for address in self.turns:
            share = self.shares[address]
            if share.shaking >= most:
                continue
            arrival = next(iter(share.waiting))
            del share.waiting[arrival], self.turns[address]
            if share.waiting:
                self.turns[address] = None
            arrival.stage, arrival.since = Stage.SHAKING, now
            share.shaking += 1
            self.shaking += 1
            return arrival
        return None

    def open(self, arrival: Arrival) -> None:
        """A handshake is done."""
        if arrival.stage is Stage.SHAKING:
            share = self.shares[arrival.address]
            share.shaking -= 1
            self.shaking -= 1
            share.open += 1
            arrival.stage = Stage.OPEN

    def forget(self, arrival: Arrival) -> None:
        """A socket has ended, in whatever stage."""
        share, stage = self.shares.get(arrival.address), arrival.stage
        arrival.stage = Stage.ENDED
        if share is None or stage is Stage.ENDED:
            return
        if stage is Stage.SILENT:
            del self.silent[arrival], share.silent[arrival]
        elif stage is Stage.WAITING:
            del share.waiting[arrival]
            if not share.waiting:
                del self.turns[arrival.address]
        elif stage is Stage.SHAKING:
            share.shaking -= 1
            self.shaking -= 1
        else:
            share.open -= 1
        self.connections -= stage is not Stage.SILENT
        if not share.silent and not share.connections:
            del self.shares[arrival.address]

    # Time

    def overdue(self, now: float) -> Iterator[tuple[Arrival, str]]:
        """The sockets that were silent, or waited for a handshake, for too long, each with why it is closed.

        (asyncio ends a handshake that takes too long)
        """
        limits = self.limits
        for arrival in self.silent:
            if not limits.silent_seconds or now - arrival.since <= limits.silent_seconds:
                break
            yield arrival, NO_FIRST_BYTE
        for address in self.turns:
            for arrival in self.shares[address].waiting:
                if now - arrival.since <= limits.handshake_seconds:
                    break
                yield arrival, NO_HANDSHAKE

    def share_of(self, address: str) -> Share:
        return self.shares.setdefault(address, Share())

    @property
    def waiting(self) -> int:
        return sum(len(self.shares[it].waiting) for it in self.turns)
