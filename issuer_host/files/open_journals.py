"""The journals that a host has open, and whether they are still those of their names."""
import os
from collections.abc import Iterable
from enum import Enum
from typing import Optional

from issuer_host.facts.journals import journals_of


# What became of journals whose names other files have.
REPLACED = "were moved or replaced: put back the first ones"


class Look(Enum):
    """What a look at the journals found."""

    SAME = "same"
    # Another file has a journal's name.
    REPLACED = "replaced"
    # It could not be seen.
    FAILED = "failed"


class OpenJournals:
    """The files that a host began with. A file beside them is the next start's concern."""

    def __init__(self, paths: Iterable[str]) -> None:
        self.inodes = {path: inode_of(path) for path in paths}
        # How many looks one after another failed.
        self.failed = 0

    def look(self) -> Look:
        """Looks at all journals. One that can't be seen is no replacement."""
        try:
            are_same = all(inode_of(path) == inode for path, inode in self.inodes.items())
        except OSError:
            self.failed += 1
            return Look.FAILED
        self.failed = 0
        return Look.SAME if are_same else Look.REPLACED


class FirstJournals:
    """The files that had the journals' names when this process noted them first."""

    def __init__(self, name: str) -> None:
        self.name = name
        self.found: Optional[OpenJournals] = None

    def note(self) -> None:
        """Notes the files that have the names now, unless some were noted before."""
        if self.found is None:
            self.found = open_journals(self.name)

    def look(self) -> Look:
        """Looks whether the files that were noted have the names."""
        return Look.SAME if self.found is None else self.found.look()

    def are_others(self) -> bool:
        """Whether other files have the names now than at the first look."""
        self.note()
        return self.look() is Look.REPLACED


def open_journals(name: str) -> Optional[OpenJournals]:
    """Returns the journals of a name, or None if they can't be seen now, or there are none."""
    try:
        paths = journals_of(name)
        return OpenJournals(paths) if paths else None
    except OSError:
        return None


def inode_of(path: str) -> tuple[int, int]:
    found = os.stat(path)
    return found.st_dev, found.st_ino
