"""Writes what the gateway acknowledges into the spool: synced before its answer, one sync for all that wait.

A disk may hang. So files are written in a thread of their own, and a line that isn't durable within the time limit of a
message is answered as one that isn't stored; it may be stored later, and its repeat is then known.
"""

import asyncio
import fcntl
import os
from collections.abc import Callable, Iterable, Mapping, Sequence
from concurrent.futures import ThreadPoolExecutor
from typing import Any, Optional, Protocol

from issuer_host.facts.refusal import Refusal
from issuer_host.files import spool
from issuer_host.files.folders import check_folder, sync_folder
from issuer_host.files.private_files import check_private
from issuer_host.files.regular_files import open_regular
from issuer_host.files.spool import SpoolLine, SpoolPlace
from issuer_host.files.summed_lines import summed
from issuer_host.files.whole_writes import write_whole

# With so many bytes a file is full, and the next one begun.
SEGMENT_BYTES = 16 << 20
# So many files are read at a start for what is known already.
KNOWN_SEGMENTS = 4
LOCK = "lock"
FLAGS = os.O_RDWR | os.O_CREAT

Stored = Callable[[bool], object]


class SpoolWriter:
    """The files. Its calls may wait for the disk."""

    def __init__(self, folder: str, segment_bytes: int = SEGMENT_BYTES) -> None:
        self.folder, self.segment_bytes = folder, segment_bytes
        self.lock = self.file = -1
        self.number = self.size = 0
        # Whether the files could be opened, and their last lines read.
        self.is_open = False

    def open(self) -> list[SpoolLine]:
        """Begins to write, and returns the last lines that were written before. A crash may have torn the last one."""
        os.makedirs(self.folder, mode=0o700, exist_ok=True)
        check_folder(self.folder)
        if self.lock < 0:
            self.take_lock()
        numbers = spool.segments_of(self.folder) or [1]
        self.open_segment(numbers[-1])
        found: list[SpoolLine] = []
        for number in numbers[-KNOWN_SEGMENTS:]:
            found += spool.lines_of_segment(self.folder, SpoolPlace(number), self.segment_bytes)
        last = found[-1].end if found else SpoolPlace(self.number)
        self.size = last.at if last.segment == self.number else 0
        self.restore()
        self.is_open = True
        return found

    def take_lock(self) -> None:
        lock = open_regular(os.path.join(self.folder, LOCK), FLAGS)
        try:
            fcntl.flock(lock, fcntl.LOCK_EX | fcntl.LOCK_NB)
        except BlockingIOError as fault:
            os.close(lock)
            raise Refusal(f"another gateway writes the spool {self.folder}: give each its own") from fault
        self.lock = lock

    def open_segment(self, number: int) -> None:
        path = spool.segment_path(self.folder, number)
        file = open_regular(path, FLAGS)
        if self.file >= 0:
            os.close(self.file)
        self.file, self.number, self.size = file, number, 0
        check_private(path, "spool")
        sync_folder(self.folder)

    def restore(self) -> None:
        """Truncates what a write left that wasn't whole."""
        if os.fstat(self.file).st_size != self.size:
            os.ftruncate(self.file, self.size)

    def store(self, said: Sequence[dict[str, Any]]) -> None:
        """Appends objects, which are durable when this returns. An OSError says that none is."""
        data = "".join(summed(one) + "\n" for one in said).encode()
        if self.size >= self.segment_bytes:
            self.open_segment(self.number + 1)
        with spool.locked(self.file, fcntl.LOCK_EX):
            self.restore()
            try:
                write_whole(self.file, data, self.size)
                os.fdatasync(self.file)
            except OSError:
                self.restore()
                raise
        self.size += len(data)

    def close(self) -> None:
        for file in (self.file, self.lock):
            if file >= 0:
                os.close(file)
        self.file = self.lock = -1


class StoredBefore(Protocol):
    """What was stored."""

    def load(self, objects: Iterable[Mapping[str, Any]]) -> None:
        """Takes what was stored before."""

    def knows(self, said: Mapping[str, Any]) -> bool:
        """Whether an object was stored."""

    def add(self, said: Mapping[str, Any]) -> None:
        """An object was stored."""


class SpoolQueue:
    """What waits for the disk. `then` is told once whether an object is durable."""

    def __init__(
        self,
        loop: asyncio.AbstractEventLoop,
        writer: SpoolWriter,
        memory: StoredBefore,
        seconds: float,
        tell: Callable[[str], object],
    ) -> None:
        self.loop, self.writer, self.memory, self.seconds, self.tell = loop, writer, memory, seconds, tell
        # Is told of each object that wasn't stored in time.
        self.not_stored: Callable[[], object] = lambda: None
        self.thread = ThreadPoolExecutor(1, "spool")
        self.waiting: list[WaitingObject] = []
        self.work: Optional[asyncio.Task[None]] = None

    async def begin(self) -> None:
        """Opens the files. A disk that takes nothing is tried again with each object; other faults are a Refusal."""
        try:
            await self.open()
        except OSError as fault:
            self.say(fault)

    async def open(self) -> None:
        lines = await self.loop.run_in_executor(self.thread, self.writer.open)
        self.memory.load(line.said() for line in lines)

    def add(self, said: dict[str, Any], then: Stored) -> None:
        def ended(is_stored: bool) -> None:
            if not is_stored:
                self.not_stored()
            then(is_stored)

        self.waiting.append(WaitingObject(self.loop, said, self.seconds, ended))
        if self.work is None:
            self.work = self.loop.create_task(self.write())

    async def write(self) -> None:
        """Writes what waits, all at once, until nothing waits."""
        while self.waiting:
            taken = list[WaitingObject]()
            try:
                if not self.writer.is_open:
                    await self.open()
                taken, self.waiting = self.waiting, []
                # (what a disk that hung took in the end may have come again meanwhile)
                new = [it.said for it in taken if not self.memory.knows(it.said)]
                await self.loop.run_in_executor(self.thread, self.writer.store, new)
            except (OSError, Refusal) as fault:
                self.say(fault)
                taken, self.waiting = taken + self.waiting, []
                self.end(taken, False)
            else:
                for said in new:
                    self.memory.add(said)
                self.end(taken, True)
        self.work = None

    def end(self, taken: Sequence["WaitingObject"], is_stored: bool) -> None:
        for one in taken:
            one.end(is_stored)

    def say(self, fault: Exception) -> None:
        self.tell(f"nothing is acknowledged: the spool {self.writer.folder} can't be written: {fault}")

    async def close(self) -> None:
        """Ends once what was taken is written, or a disk that hangs has had its time."""
        if self.work is not None:
            await asyncio.wait([self.work], timeout=self.seconds)
        self.thread.shutdown(wait=False)


class WaitingObject:
    """An object, and who waits until it is durable, for so long at most."""

    __slots__ = ("said", "then", "timer", "is_over")

    def __init__(self, loop: asyncio.AbstractEventLoop, said: dict[str, Any], seconds: float, then: Stored) -> None:
        self.said, self.then, self.is_over = said, then, False
        self.timer = loop.call_later(seconds, self.end, False)

    def end(self, is_stored: bool) -> None:
        if not self.is_over:
            self.is_over = True
            self.timer.cancel()
            self.then(is_stored)
