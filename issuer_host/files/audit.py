"""The log of who did what: beside the journals, `JOURNAL.audit`, one JSON object a line, for a collector.

Bridges, orders and careful starts append to it. A line has the time, who did it (`by`), what it was, and where there is
one: the shard and the index of the record, the card with its PAN masked, the user who asked for it. Past a size the
file gets the ending `.1`, that one `.2`, and so on; the oldest is removed. What can't be written is left out: no fault
of the log ends anything.
"""
import datetime
import errno
import fcntl
import json
import os
from collections.abc import Callable
from typing import Optional

from issuer_host.facts.answers import RECORDED, kind_of, words_of
from issuer_host.facts.masks import masked
from issuer_host.facts.refusal import Refusal
from issuer_host.facts.troubles import Troubles
from issuer_host.files.folders import as_owner, folder_of
from issuer_host.files.placement import move_in_place
from issuer_host.files.regular_files import open_regular

Action = Callable[[], object]

ENDING = ".audit"
# The size past which a file is full, and how many full ones are kept.
MOST_BYTES = 64 << 20
FULL_FILES = 4
# So many lines are written between two looks whether another process has moved the file away.
LOOK_LINES = 64
UNWRITTEN = "the log of who did what isn't written"
FLAGS = os.O_WRONLY | os.O_CREAT | os.O_APPEND


class Audit:
    """The log of a partition's journals."""

    def __init__(
        self,
        journal: str,
        name: str,
        most_bytes: int = MOST_BYTES,
        later: Optional[Callable[[Action], object]] = None,
        full_files: int = FULL_FILES,
    ) -> None:
        """`later` calls an action in a moment: lines are written then, together. Without it each is written at once."""
        self.full_files = full_files
        self.path = journal + ENDING
        self.later = later
        # Lines that aren't written yet, and how each begins.
        self.pending: list[str] = []
        self.time = ""
        self.name = name
        self.most_bytes = most_bytes
        self.file = -1
        self.lines = 0
        # Whether nobody is told that lines can't be written.
        self.is_quiet = False
        self.troubles = Troubles(name)
        # Whether the file may end within a line.
        self.is_torn = False

    def answered(self, by: str, line: str, pan: str, answer: str, uid: Optional[int] = None, number: str = "") -> None:
        """A host answered a line of a card."""
        more = "" if uid is None else f',"uid":{uid}'
        order = f',"order":{json.dumps(number)}' if number else ""
        self.add(f'"by":"{by}","what":"{line[:1]}",{place_of(answer)},"card":"{pan and masked(pan)}"{more}{order}')

    def started(self, command: str, uid: int, why: str = "", program: str = "") -> None:
        """A start was handed over to a program of a SHA-256, or refused. One that can't be noted is told by nobody."""
        self.is_quiet = True
        said: dict[str, object] = {"by": self.name, "what": "refused" if why else "start", "command": command}
        more = {name: value for name, value in (("program", program), ("why", why)) if value}
        self.note({**said, "uid": uid, **more})

    def note(self, said: "dict[str, object]") -> None:
        self.add(json.dumps(said, separators=(",", ":"))[1:-1])

    def add(self, members: str) -> None:
        """Adds a line of these members, and the time."""
        if not self.pending:
            now = datetime.datetime.now(datetime.timezone.utc)
            self.time = now.isoformat(timespec="milliseconds").replace("+00:00", "Z")
            if self.later is not None:
                self.later(self.flush)
        self.pending.append(f'{{"time":"{self.time}",{members}}}\n')
        if self.later is None:
            self.flush()

    def flush(self) -> None:
        """Appends what was added, unless that fails: the first of such failures is told, and when it is over."""
        lines, self.pending = self.pending, []
        if not lines:
            return
        try:
            self.append("".join(lines).encode(), len(lines))
            self.troubles.ends(UNWRITTEN, f"{self.path} is written again")
        except (OSError, Refusal) as fault:
            if not self.is_quiet:
                why = fault.strerror if isinstance(fault, OSError) else str(fault)
                self.troubles.begins(UNWRITTEN, f"{self.path}: {why}. Its lines are left out, and nothing stops")

    def append(self, text: bytes, lines: int) -> None:
        if self.file < 0 or self.lines >= LOOK_LINES:
            self.look()
            self.lines = 0
        self.lines += lines
        text = b"\n" * self.is_torn + text
        self.is_torn = True
        if os.write(self.file, text) < len(text):
            raise OSError(errno.ENOSPC, os.strerror(errno.ENOSPC))
        self.is_torn = False

    def look(self) -> None:
        """Opens the file of the name, and begins a new one if it is full."""
        self.close()
        with as_owner(folder_of(self.path)):
            self.file = open_regular(self.path, FLAGS)
            if os.fstat(self.file).st_size < self.most_bytes:
                return
            fcntl.flock(self.file, fcntl.LOCK_EX)
            if is_of_name(self.file, self.path):
                self.move()
            self.close()
            self.file = open_regular(self.path, FLAGS)

    def move(self) -> None:
        """Gives a full file the next ending, and those before it the ones after theirs."""
        for number in range(self.full_files, 0, -1):
            before = f"{self.path}.{number - 1}" if number > 1 else self.path
            if os.path.exists(before):
                move_in_place(before, f"{self.path}.{number}")

    def close(self) -> None:
        if self.file >= 0:
            os.close(self.file)
            self.file = -1


def is_of_name(file: int, path: str) -> bool:
    """Whether an open file still has its name."""
    opened, named = os.fstat(file), os.stat(path)
    return (opened.st_dev, opened.st_ino) == (named.st_dev, named.st_ino)


def place_of(answer: str) -> str:
    """Returns what an answer says of its record, or of its refusal, as members of an object."""
    words = words_of(answer)
    word = words[0]
    if word in RECORDED:
        return f'"kind":"{word}","shard":{words[1]},"place":{words[2]}'
    refusal = kind_of(answer).refusal
    return f'"kind":"{word}","refusal":{int(refusal)}' if refusal.isdigit() else f'"kind":"{word}"'
