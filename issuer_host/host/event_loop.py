"""The loop that a bridge, a node and publishers run in, as `pika` gives it."""
from collections.abc import Callable
from typing import Protocol

Action = Callable[[], object]


class Loop(Protocol):
    """Waits for files and for time, and calls back."""

    READ: int
    WRITE: int

    def start(self) -> None:
        ...

    def stop(self) -> None:
        ...

    def call_later(self, delay: float, callback: Action) -> object:
        ...

    def remove_timeout(self, timeout_handle: object) -> None:
        ...

    def add_callback_threadsafe(self, callback: Action) -> None:
        ...

    def add_handler(self, fd: int, handler: Callable[[int, int], None], events: int) -> None:
        ...

    def remove_handler(self, fd: int) -> None:
        ...


def call_soon(loop: Loop, callback: Action) -> None:
    """Has the loop call back once it has done what it is at.

    For the loop's own thread: another one has to wake the loop, which takes two calls of the system.
    """
    loop.call_later(0, callback)


def new_loop() -> Loop:
    """Returns a loop of `pika`."""
    from pika.adapters.select_connection import IOLoop

    loop: Loop = IOLoop()
    return loop
