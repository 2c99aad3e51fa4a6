"""A disk, by the calls that reach it: what is on it for certain, and what a power failure may leave."""
import os
import random
from collections.abc import Iterable, Iterator
from typing import NamedTuple, Optional, Union

from program.durability.watching import FOLDER, JOURNAL, Call

O_CREAT = os.O_CREAT
SYNCS = ("fsync", "fdatasync")


class Write(NamedTuple):
    """Bytes that were written at an offset."""

    at: int
    data: bytes

    def apply(self, content: bytearray) -> None:
        if len(content) < self.at:
            content.extend(bytes(self.at - len(content)))
        content[self.at : self.at + len(self.data)] = self.data


class Truncate(NamedTuple):
    """A length that was set."""

    length: int

    def apply(self, content: bytearray) -> None:
        del content[self.length :]
        content.extend(bytes(self.length - len(content)))


Change = Union[Write, Truncate]


class File:
    """A file: what the system gives to readers, what is durable, and the changes between the two, in order."""

    def __init__(self, content: bytes, is_named: bool) -> None:
        self.held = bytearray(content)
        self.durable = bytearray(content)
        self.waiting: list[Change] = []
        # What readers were given before each truncation.
        self.cut: list[bytes] = []
        # Whether the entry of its directory is durable.
        self.is_named = is_named

    def copy(self) -> "File":
        copied = File(bytes(self.held), self.is_named)
        copied.durable = bytearray(self.durable)
        copied.waiting = list(self.waiting)
        copied.cut = list(self.cut)
        return copied

    def change(self, change: Change) -> None:
        if isinstance(change, Truncate):
            self.cut.append(bytes(self.held))
        change.apply(self.held)
        self.waiting.append(change)

    def sync(self) -> None:
        for change in self.waiting:
            change.apply(self.durable)
        self.waiting.clear()

    def fail_to_sync(self) -> None:
        """A sync that fails: the system holds what was written for written from now on, though it never was."""
        self.waiting = [change for change in self.waiting if isinstance(change, Truncate)]

    def left(self, changes: int, torn: int, truncates: bool = True) -> bytes:
        """What is left if so many of the changes reached the disk, and so many bytes of the next one if that writes.

        A truncation may be left undone though what follows it reached the disk.
        """
        content = bytearray(self.durable)
        for change in self.waiting[:changes]:
            if truncates or isinstance(change, Write):
                change.apply(content)
        following = self.waiting[changes : changes + 1]
        if following and isinstance(following[0], Write):
            Write(following[0].at, following[0].data[:torn]).apply(content)
        return bytes(content)


Image = dict[str, bytes]


class Disk:
    """The journals of a folder, as runs of the program change them."""

    def __init__(self, content: Image, forgets: bool = True) -> None:
        # Whether a sync that fails loses what it had to write.
        self.forgets = forgets
        self.files = {name: File(data, is_named=True) for name, data in content.items()}
        self.open: dict[int, str] = {}

    @staticmethod
    def of_folder(folder: str, forgets: bool = True) -> "Disk":
        """The disk with the journals that a folder has, all of them durable."""
        return Disk(read_journals(folder), forgets)

    def copy(self) -> "Disk":
        copied = Disk({}, self.forgets)
        copied.files = {name: file.copy() for name, file in self.files.items()}
        return copied

    def take_all(self, calls: Iterable[Call]) -> None:
        """Takes the calls of a run, whose descriptors are its own."""
        self.open.clear()
        for call in calls:
            self.take(call)

    def take(self, call: Call) -> None:
        if call.name == "open" and call.result >= 0 and call.file_class == JOURNAL:
            name = os.path.basename(call.path)
            self.open[call.result] = name
            if call.first & O_CREAT and name not in self.files:
                self.files[name] = File(b"", is_named=False)
        elif call.name == "close":
            self.open.pop(call.file, None)
        elif call.name in SYNCS:
            self.take_sync(call)
        elif call.file in self.open and call.result >= 0:
            if call.name == "pwrite":
                self.files[self.open[call.file]].change(Write(call.first, call.data))
            elif call.name == "ftruncate":
                self.files[self.open[call.file]].change(Truncate(call.first))

    def take_sync(self, call: Call) -> None:
        if call.file_class == FOLDER and call.result == 0:
            for file in self.files.values():
                file.is_named = True
        name = self.name_of(call)
        if name is not None and call.result == 0:
            self.files[name].sync()
        elif name is not None and self.forgets:
            self.files[name].fail_to_sync()

    def name_of(self, call: Call) -> Optional[str]:
        """The journal of a call's descriptor, if it is one."""
        return self.open.get(call.file)

    def held(self) -> Image:
        return {name: bytes(file.held) for name, file in self.files.items()}

    def written(self, name: str) -> list[list[bytes]]:
        """The records that a journal has had: before each truncation, which a power failure may undo, and at last."""
        file = self.files.get(name, File(b"", is_named=False))
        return [content.split(b"\n")[1:-1] for content in (*file.cut, bytes(file.held))]

    def without_unsynced(self) -> Image:
        """What a power failure leaves if nothing reached the disk that wasn't synced."""
        return {name: bytes(file.durable) for name, file in self.files.items() if file.is_named}

    def some_left(self, chance: random.Random) -> Image:
        """What a power failure may leave: of each file a prefix of its changes, the next one torn, truncated or not."""
        image = {}
        for name, file in sorted(self.files.items()):
            changes = chance.randint(0, len(file.waiting))
            following = file.waiting[changes : changes + 1]
            most = len(following[0].data) if following and isinstance(following[0], Write) else 0
            if file.is_named or chance.random() < 0.5:
                image[name] = file.left(changes, chance.randint(0, most), chance.random() < 0.5)
        return image

    def images(self, chance: random.Random, count: int) -> Iterator[Image]:
        """What a power failure may leave: nothing unsynced, and then so many others."""
        yield self.without_unsynced()
        for _ in range(count):
            yield self.some_left(chance)


def read_journals(folder: str) -> Image:
    """The bytes of a folder's journals, by their names."""
    image = {}
    for name in os.listdir(folder):
        if name.startswith("journal"):
            with open(os.path.join(folder, name), "rb") as data:
                image[name] = data.read()
    return image


def write_journals(folder: str, image: Image) -> None:
    for name, content in image.items():
        with open(os.path.join(folder, name), "wb") as data:
            data.write(content)


def records_of(image: Image, name: str) -> list[bytes]:
    """The whole records of a journal, none if it isn't there."""
    return image.get(name, b"").split(b"\n")[1:-1]
