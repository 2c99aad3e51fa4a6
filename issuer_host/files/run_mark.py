"""The mark of a run beside its journals: whether one may append to them, and what the last one left.

The file `NAME.run` is locked by a run for as long as it lives: a careful start hands the lock over to the program. It
has a line for each journal: the shard, the bytes of the journal's whole lines, and how many seals it has. While a run
may append, each line ends with `+`: journal and seals had so much when the run began, and have no less since. A first
line has the name of the last run. A file outside the folder may name it too (`last_run`).
"""
import fcntl
import os
from collections.abc import Mapping
from typing import Optional

from issuer_host.facts.journals import MAX_RECORD_LINE, journal_path, shards_of_files
from issuer_host.files.regular_files import open_regular
from issuer_host.files.seals import Left, count_seals

ENDING = ".run"
MOST = 4096
GROWS = "+"
RUN = "run"
NAME_BYTES = 8


def text_of(shard: int, left: Left) -> str:
    numbers = [shard, left.size, *([] if left.seals is None else [left.seals])]
    return " ".join([*map(str, numbers), *[GROWS] * left.may_have_grown]) + "\n"


def left_of(words: list[str]) -> Optional[Left]:
    """Returns what the words after a line's shard say; None if they are of another form."""
    grows = words[-1:] == [GROWS]
    numbers = words[:-1] if grows else words
    if len(numbers) not in (1, 2) or not all(word.isdecimal() for word in numbers):
        return None
    return Left(int(numbers[0]), int(numbers[1]) if len(numbers) > 1 else None, grows)


def mark_path(name: str) -> str:
    return name + ENDING


class RunMark:
    """The mark of journals, which this process has locked."""

    def __init__(self, name: str, file: int) -> None:
        self.name = name
        self.file = file

    def left(self) -> dict[int, Left]:
        """Returns what the last run left, by shard, as far as the mark says it."""
        found: dict[int, Left] = {}
        for shard, *words in self.lines():
            left = left_of(words)
            if shard.isdecimal() and left is not None:
                found.setdefault(int(shard), left)
        return found

    def run(self) -> str:
        """Returns the name of the last run; nothing if it has none."""
        return next((words[1] for words in self.lines() if words[0] == RUN and len(words) > 1), "")

    def lines(self) -> list[list[str]]:
        text = os.pread(self.file, MOST, 0).decode("ascii", errors="replace")
        return [line.split(" ") for line in text.splitlines()]

    def may_append(self) -> None:
        """From now on a run may append that no careful start began."""
        self.write({shard: left._replace(may_have_grown=True) for shard, left in self.left().items()})

    def has_begun(self, run: str) -> None:
        """From now on a run of this name may append. The journals were checked, and all their records are sealed."""
        self.write({shard: left._replace(may_have_grown=True) for shard, left in self.left_now().items()}, run)

    def was_checked(self, run: str) -> None:
        """The journals were checked by a run of this name, and none appends to them until the next one begins."""
        self.write(self.left_now(), run)

    def has_ended(self, sealed: Optional[Mapping[int, Left]] = None) -> None:
        """No run appends any more, until the next one begins. `sealed` is what the run sealed of each journal.

        A line of a run that began is renewed, unless the journal or its seals now have less than when it began, or
        than was sealed: then records were lost, and the line keeps what they had, for the next start to refuse. A line
        stays if no run began since it was written: a start that was refused left it.
        """
        before, now = self.left(), self.left_now()
        for shard, left in (sealed or {}).items():
            before[shard] = greater(before[shard], left) if shard in before else left
        self.write({shard: renewed(before.get(shard), left) for shard, left in now.items()} | gone(before, now))

    def is_cut(self, shard: int, left: Left) -> None:
        """A journal and its seals are truncated next: a start after a crash asks for no more of them."""
        self.may_append()
        self.write(self.left() | {shard: left._replace(may_have_grown=True)})

    def left_now(self) -> dict[int, Left]:
        """Returns what the journals have, durably."""
        return {shard: measured(journal_path(self.name, shard)) for shard in shards_of_files(self.name).journals}

    def write(self, left: Mapping[int, Left], run: str = "") -> None:
        """Writes the mark anew, durably, with the run's name. Without one it keeps that of the last run.

        A crash between its steps leaves lines of before after those of now.
        """
        name = run or self.run()
        lines = [f"{RUN} {name}\n"] * bool(name) + [text_of(shard, one) for shard, one in left.items()]
        text = "".join(lines).encode()
        os.pwrite(self.file, text, 0)
        os.ftruncate(self.file, len(text))
        os.fsync(self.file)

    def hand_over(self) -> None:
        """Lets the program that this process becomes hold the lock."""
        os.set_inheritable(self.file, True)

    def close(self) -> None:
        os.close(self.file)


def greater(one: Left, other: Left) -> Left:
    """Returns the greater counts of two, with the sign of the first."""
    return one._replace(size=max(one.size, other.size), seals=max(one.seals or 0, other.seals or 0))


def renewed(before: Optional[Left], now: Left) -> Left:
    """Returns what the mark says of a journal after a run."""
    if before is None:
        return now
    has_lost = now.size < before.size or (now.seals or 0) < (before.seals or 0)
    return before if has_lost or not before.may_have_grown else now


def gone(before: Mapping[int, Left], now: Mapping[int, Left]) -> "dict[int, Left]":
    """Returns the lines of journals that aren't there any more."""
    return {shard: left for shard, left in before.items() if shard not in now}


def measured(journal: str) -> Left:
    """Returns what a journal has, once it is durable."""
    with open(open_regular(journal, os.O_RDONLY), "rb") as opened:
        os.fdatasync(opened.fileno())
        return Left(end_of_lines(opened.fileno()), count_seals(journal), False)


def end_of_lines(file: int) -> int:
    """Returns where the last whole line of a file ends."""
    at = os.fstat(file).st_size
    while at:
        first = max(at - MAX_RECORD_LINE, 0)
        newline = os.pread(file, at - first, first).rfind(b"\n")
        if newline >= 0:
            return first + newline + 1
        at = first
    return 0


def new_run() -> str:
    """Returns a name for a run that none had before."""
    return os.urandom(NAME_BYTES).hex()


def last_run_of(name: str) -> str:
    """Returns the name of the last run, by the mark beside journals; nothing if there is none."""
    try:
        mark = RunMark(name, open_regular(mark_path(name), os.O_RDONLY))
    except OSError:
        return ""
    try:
        return mark.run()
    finally:
        mark.close()


def lock_mark(name: str, creates: bool = True) -> Optional[RunMark]:
    """Locks the mark of journals. Returns None while a run has it, or if there is none and none is to be created."""
    try:
        file = open_regular(mark_path(name), os.O_RDWR | (os.O_CREAT if creates else 0))
    except FileNotFoundError:
        return None
    try:
        fcntl.flock(file, fcntl.LOCK_EX | fcntl.LOCK_NB)
    except BlockingIOError:
        os.close(file)
        return None
    return RunMark(name, file)
