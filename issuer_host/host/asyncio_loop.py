"""A loop of asyncio, as a supervisor sees it: the gateway's, and that of a follower's standby."""

import asyncio
import threading
from collections.abc import Callable


class AsyncioLoop:
    """`host.event_loop.Loop` over asyncio."""

    READ, WRITE = 1, 2

    def __init__(self, loop: asyncio.AbstractEventLoop) -> None:
        self.loop, self.thread = loop, threading.get_ident()

    def start(self) -> None:
        self.loop.run_forever()

    def stop(self) -> None:
        self.loop.stop()

    def call_later(self, delay: float, callback: Callable[[], object]) -> object:
        return self.loop.call_later(delay, callback)

    def remove_timeout(self, timeout_handle: object) -> None:
        if isinstance(timeout_handle, asyncio.TimerHandle):
            timeout_handle.cancel()

    def add_callback_threadsafe(self, callback: Callable[[], object]) -> None:
        if threading.get_ident() == self.thread:
            # (the other way wakes the loop by a system call)
            self.loop.call_soon(callback)
        else:
            self.loop.call_soon_threadsafe(callback)

    def add_handler(self, fd: int, handler: Callable[[int, int], None], events: int) -> None:
        add = self.loop.add_reader if events == self.READ else self.loop.add_writer
        add(fd, handler, fd, events)

    def remove_handler(self, fd: int) -> None:
        self.loop.remove_reader(fd)
        self.loop.remove_writer(fd)
