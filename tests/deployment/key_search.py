#!/usr/bin/python3
"""Looks for keys where none may be: as bytes, and in hexadecimal of either case, with the parity of DES or without.

usage: key_search.py KEYS files FOLDER ..     (files of these folders that changed since the file KEYS did)
       key_search.py KEYS processes PID ..    (memory, environment, words, and open files that have no name)

KEYS has a key a line, in hexadecimal. It prints each place that has a key, and last how many places it searched. The
kernel's folders aren't searched, nor KEYS and its neighbours. It needs nothing but Python: a container runs it too.
"""
import os
import stat
import sys
from collections.abc import Iterator, Sequence

PIECE = 1 << 22
# More than a key has in any form, so that none is lost between two pieces.
OVERLAP = 64
OF_THE_KERNEL = ("/proc", "/sys", "/dev")
# (a disk in memory, and the way there)
IN_MEMORY = ("/dev", "/dev/shm")


def with_odd_parity(key: bytes) -> bytes:
    return bytes((byte & 0xFE) | (bin(byte >> 1).count("1") & 1 ^ 1) for byte in key)


class KeySearch:
    """Keys, in each form that a file or a memory could have."""

    def __init__(self, keys: Sequence[bytes]) -> None:
        forms = [form for key in keys for form in (key, with_odd_parity(key))]
        self.clear = forms
        self.digits = [form.hex().encode() for form in forms]

    def is_in(self, data: bytes) -> bool:
        """Whether a key is in some data."""
        lowered = data.lower()
        return any(form in data for form in self.clear) or any(form in lowered for form in self.digits)

    def is_in_any(self, pieces: Iterator[bytes]) -> bool:
        """Whether a key is in data that come in pieces."""
        end = b""
        for piece in pieces:
            if self.is_in(end + piece):
                return True
            end = piece[-OVERLAP:]
        return False


def pieces_of(path: str) -> Iterator[bytes]:
    """A file's content. One that is gone, or can't be read, has none."""
    try:
        with open(path, "rb") as file:
            while piece := file.read(PIECE):
                yield piece
    except OSError:
        return


def memory_of(process: int) -> Iterator[bytes]:
    """The memory of a process that may be written, piece by piece."""
    with open(f"/proc/{process}/maps", encoding="ascii") as maps, open(f"/proc/{process}/mem", "rb", 0) as memory:
        for line in maps:
            ends, rights, *_ = line.split()
            if rights.startswith("rw"):
                begin, end = (int(part, 16) for part in ends.split("-"))
                memory.seek(begin)
                try:
                    yield memory.read(end - begin)
                except OSError:
                    # (the kernel's own pages)
                    continue


def nameless_files_of(process: int) -> Iterator[str]:
    """What a process has open and no search of folders finds: removed files, and files in memory."""
    for held in os.listdir(f"/proc/{process}/fd"):
        path = f"/proc/{process}/fd/{held}"
        try:
            found = os.stat(path)
        except OSError:
            continue
        if stat.S_ISREG(found.st_mode) and found.st_nlink == 0:
            yield path


def places_of(process: int) -> Iterator[tuple[str, Iterator[bytes]]]:
    """The places of a process that can have a key, each with its content."""
    yield f"memory of {process}", memory_of(process)
    for name in ("environ", "cmdline"):
        yield f"/proc/{process}/{name}", pieces_of(f"/proc/{process}/{name}")
    for path in nameless_files_of(process):
        yield path, pieces_of(path)


def files_since(folders: Sequence[str], keys: str) -> Iterator[str]:
    """The files of some folders that changed since the file with the keys did."""
    since, beside = os.stat(keys).st_mtime, os.path.dirname(os.path.realpath(keys))
    for folder in folders:
        for root, names, files in os.walk(folder):
            names[:] = [name for name in names if is_searched(os.path.join(root, name), beside)]
            for name in files:
                path = os.path.join(root, name)
                found = os.lstat(path) if os.path.lexists(path) else None
                if found and stat.S_ISREG(found.st_mode) and max(found.st_mtime, found.st_ctime) >= since:
                    yield path


def is_searched(folder: str, beside: str) -> bool:
    return folder in IN_MEMORY or folder != beside and not folder.startswith(OF_THE_KERNEL)


def places(what: str, words: Sequence[str], keys: str) -> Iterator[tuple[str, Iterator[bytes]]]:
    if what == "files":
        return ((path, pieces_of(path)) for path in files_since(words, keys))
    return (place for process in words for place in places_of(int(process)))


def main(words: Sequence[str]) -> None:
    keys, what, *given = words
    with open(keys, encoding="ascii") as text:
        search = KeySearch([bytes.fromhex(line) for line in text.read().split()])
    searched = 0
    for place, pieces in places(what, given, keys):
        searched += 1
        if search.is_in_any(pieces):
            print(place)
    print(f"{searched} searched")


if __name__ == "__main__":
    main(sys.argv[1:])
