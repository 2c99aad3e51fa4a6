"""The spool of what a gateway acknowledged: a folder of files with one JSON object a line, each with a sum.

The gateway appends to the last file, and holds its lock while it does. Who reads holds the lock too, and syncs the file
before it gives a line out: so no line is given out that a crash could take back. How far lines were given out, and how
far that was confirmed, is in the file `position`.
"""
import contextlib
import fcntl
import json
import os
import re
from collections.abc import Iterator
from typing import Any, NamedTuple, Optional

from issuer_host.facts.refusal import Refusal
from issuer_host.files.placement import put_in_place
from issuer_host.files.private_files import check_private
from issuer_host.files.regular_files import open_regular
from issuer_host.files.summed_lines import said_of, summed

SEGMENT = re.compile(r"advices\.([0-9]{8})")
POSITION = "position"
# What is read of a file at a time.
PIECE = 1 << 20


class SpoolPlace(NamedTuple):
    """Where a line begins: the number of its file, and the offset there."""

    segment: int = 1
    at: int = 0

    @property
    def text(self) -> str:
        return f"{self.segment}-{self.at}"


class SpoolLine(NamedTuple):
    """A line of the spool: where it begins, where it ends, and its text without the newline."""

    place: SpoolPlace
    end: SpoolPlace
    text: str

    def said(self) -> dict[str, Any]:
        """The object of the line. One that was changed since it was written says so, with its text."""
        try:
            return said_of(self.text)
        except ValueError:
            return {"what": "damaged", "text": self.text}


class SpoolPosition(NamedTuple):
    """How far the lines were confirmed, in which batch, and how far the batch goes that isn't confirmed yet."""

    confirmed: SpoolPlace = SpoolPlace()
    batch: int = 0
    taken: Optional[SpoolPlace] = None


def segment_path(folder: str, number: int) -> str:
    return os.path.join(folder, f"advices.{number:08d}")


def segments_of(folder: str) -> list[int]:
    """The numbers of the files, in order."""
    return sorted(int(found[1]) for found in map(SEGMENT.fullmatch, os.listdir(folder)) if found)


@contextlib.contextmanager
def locked(file: int, kind: int) -> Iterator[None]:
    """Holds the lock of a file."""
    fcntl.flock(file, kind)
    try:
        yield
    finally:
        fcntl.flock(file, fcntl.LOCK_UN)


def lines_of(folder: str, begin: SpoolPlace, most: int) -> list[SpoolLine]:
    """The lines from a place on, so many at most. Each is durable."""
    found: list[SpoolLine] = []
    for number in segments_of(folder):
        if number >= begin.segment and len(found) < most:
            at = begin.at if number == begin.segment else 0
            found += lines_of_segment(folder, SpoolPlace(number, at), most - len(found))
    return found


def lines_of_segment(folder: str, begin: SpoolPlace, most: int) -> list[SpoolLine]:
    """The whole lines of a file from a place on, so many at most."""
    path = segment_path(folder, begin.segment)
    check_private(path, "spool")
    file, found, rest, at = open_regular(path, os.O_RDONLY), list[SpoolLine](), b"", begin.at
    try:
        with locked(file, fcntl.LOCK_SH):
            os.fdatasync(file)
            while len(found) < most:
                piece = os.pread(file, PIECE, at + len(rest))
                if not piece:
                    break
                *whole, rest = (rest + piece).split(b"\n")
                for text in whole[: most - len(found)]:
                    end = at + len(text) + 1
                    line = SpoolLine(
                        SpoolPlace(begin.segment, at), SpoolPlace(begin.segment, end), text.decode("utf-8", "replace")
                    )
                    found.append(line)
                    at = end
    finally:
        os.close(file)
    return found


def read_position(folder: str) -> SpoolPosition:
    """How far the lines were given out. A file that was changed is a Refusal."""
    path = os.path.join(folder, POSITION)
    try:
        with open(path, encoding="utf-8") as text:
            said = said_of(text.read().rstrip("\n"))
        taken = said["taken"]
        return SpoolPosition(
            SpoolPlace(*said["confirmed"]), int(said["batch"]), None if taken is None else SpoolPlace(*taken)
        )
    except FileNotFoundError:
        return SpoolPosition()
    except (ValueError, KeyError, TypeError) as fault:
        raise Refusal(
            f"{path} was changed since it was written: restore it from a copy. Without one, look at the last batch that"
            " the account system has, and set the file by `position`"
        ) from fault


def write_position(folder: str, position: SpoolPosition) -> None:
    """Notes durably how far the lines were given out."""
    said = json.loads(json.dumps(position._asdict()))
    put_in_place(os.path.join(folder, POSITION), summed(said) + "\n")
