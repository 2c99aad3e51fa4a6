"""The socket at which a gateway takes orders: each goes to the host of its card's partition."""

import asyncio
from collections.abc import Callable, Sequence
from typing import Protocol

from issuer_host.facts.partitions import partition_of
from issuer_host.host.asyncio_loop import AsyncioLoop
from issuer_host.gateway.log import NAME
from issuer_host.orders.order import Order
from issuer_host.orders.server import OrderSocket
from issuer_host.orders.texts import NO_ANSWER


class RoutedOrder(Protocol):
    """A partition that takes orders."""

    def has_host(self) -> bool:
        """Whether a host runs."""

    def probe(self, number: str, reply: Callable[[str], object]) -> None:
        """Puts a line of no form, and replies whether it is answered."""

    def order(self, order: Order, uid: int, reply: Callable[[str], object]) -> None:
        """Puts an order's line, and replies what became of it."""


class OrderRouter:
    """Orders of all partitions at one socket."""

    def __init__(self, loop: asyncio.AbstractEventLoop, path: str, partitions: Sequence[RoutedOrder]) -> None:
        self.partitions = partitions
        self.socket = OrderSocket(AsyncioLoop(loop), path, self.has_host, self.order, NAME)
        self.socket.on_probe = self.probe

    def open(self) -> None:
        if self.socket.path:
            self.socket.open()

    def end(self) -> None:
        """Takes no more orders."""
        self.socket.end()

    def has_host(self) -> bool:
        return any(partition.has_host() for partition in self.partitions)

    def probe(self, number: str, reply: Callable[[str], object]) -> None:
        """Puts a probe to the host of a partition."""
        if number.isdecimal() and int(number) < len(self.partitions):
            self.partitions[int(number)].probe(number, reply)
        else:
            reply(f"{NO_ANSWER}: the gateway has the partitions 0 to {len(self.partitions) - 1}")

    def order(self, order: Order, uid: int, reply: Callable[[str], object]) -> None:
        self.partitions[partition_of(order.card[0], len(self.partitions))].order(order, uid, reply)
