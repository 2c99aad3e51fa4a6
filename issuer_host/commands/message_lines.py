"""Searches the gateway's log of messages: the full files first, the oldest before the others."""
import datetime
import json
import os
from collections.abc import Iterator, Mapping
from typing import Any, NamedTuple, Optional

from issuer_host.files.audit import ENDING


class Wanted(NamedTuple):
    """What a line has to have: members by name, a time that begins so, or one within so many seconds of a moment."""

    members: Mapping[str, str]
    at: str = ""
    moment: Optional[datetime.datetime] = None
    seconds: float = 0.0

    def fits(self, said: Mapping[str, Any]) -> bool:
        if any(str(said.get(name, "")).lstrip("0") != value.lstrip("0") for name, value in self.members.items()):
            return False
        time = str(said.get("time", ""))
        if self.moment is None:
            return time.startswith(self.at)
        try:
            found = datetime.datetime.fromisoformat(time.replace("Z", "")).replace(tzinfo=None)
        except ValueError:
            return False
        return abs((found - self.moment).total_seconds()) <= self.seconds


def files_of(name: str) -> list[str]:
    """The log's files, the oldest first."""
    path, number, found = name + ENDING, 1, []
    while os.path.exists(f"{path}.{number}"):
        found.append(f"{path}.{number}")
        number += 1
    return [*reversed(found), path]


def found_in(name: str, wanted: Wanted) -> Iterator[dict[str, Any]]:
    """The objects of the lines that are wanted. A torn line is none."""
    for path in files_of(name):
        with open(path, encoding="utf-8", errors="replace") as text:
            for line in text:
                if not all(value in line for value in map(str, wanted.members.values())):
                    continue
                try:
                    said = json.loads(line)
                except ValueError:
                    continue
                if isinstance(said, dict) and said.get("what") == "message" and wanted.fits(said):
                    yield said
