"""The records of a journal that a host writes, as far as they are durable for certain."""
import os
import re
from typing import Optional

from issuer_host.facts.answers import RECORDED
from issuer_host.facts.journals import MAX_RECORD_LINE, VERSION_LINE, journal_path
from issuer_host.facts.refusal import Refusal

# What is read of a journal at a time.
PIECE = 65_536
# An answer that names a record.
NAMED = re.compile(rf"({'|'.join(RECORDED)}) (\d+) (\d+)( .*)?")


class FollowedJournal:
    """A shard's journal, and the index of its record that is written next."""

    def __init__(self, shard: int, name: str, index: int) -> None:
        self.shard = shard
        self.path = journal_path(name, shard)
        self.file = os.open(self.path, os.O_RDONLY | os.O_CLOEXEC)
        self.go_to(index)

    def go_to(self, index: int) -> None:
        """Goes on from another record."""
        self.index = index
        # Where that record begins; None until it is found.
        self.at: Optional[int] = None
        # How far it was looked for, and how many records are still before it.
        self.passed = 0
        self.left = index

    def find(self, pieces: Optional[int] = None) -> int:
        """Looks for the record that is written next, in so many pieces, or in all. Returns in how many it looked.

        It is found once the journal has its first line and the records before it.
        """
        looked = 0
        while self.at is None and (pieces is None or looked < pieces):
            if not (self.passed or self.has_first_line()):
                return looked
            if self.left:
                self.pass_over_piece()
                looked += 1
            if not self.left:
                self.at = self.passed
        return looked

    def has_first_line(self) -> bool:
        first = os.pread(self.file, len(VERSION_LINE), 0).decode("latin-1")
        if first == VERSION_LINE:
            self.passed = len(first)
            return True
        if not VERSION_LINE.startswith(first):
            raise Refusal(f"{self.path} is no journal of version 2")
        if self.index:
            raise Refusal(f"{self.path} is empty, and the standby has {self.index} of its records")
        return False

    def pass_over_piece(self) -> None:
        text = os.pread(self.file, PIECE, self.passed)
        *whole, rest = text.split(b"\n", self.left)
        if not whole:
            what = f"{self.index - self.left} records, and the standby has {self.index}"
            raise Refusal(f"{self.path} has {what}: they aren't of one history")
        self.passed += len(text) - len(rest)
        self.left -= len(whole)

    def check(self) -> None:
        """Refuses a journal that isn't the one that was opened, or that is shorter than what was written of it."""
        opened = os.fstat(self.file)
        now = os.stat(self.path)
        is_other = (opened.st_dev, opened.st_ino) != (now.st_dev, now.st_ino)
        if is_other or opened.st_size < (self.at or 0):
            raise Refusal(f"{self.path} was replaced or shortened, as by an older copy: begin the standby anew")

    def durable_lines(self, answered: int) -> list[bytes]:
        """The next lines that are durable, if so many records of the shard have answers.

        A record is synced before the next one is written, or else truncated. So a line with a byte after it is
        durable. The lines are read a second time after that byte was seen: the first time a line may have been read
        that was truncated before it. (Records of an old journal are copied many at a time, but that journal says
        which: they never change.)
        """
        self.find()
        if self.at is None:
            return []
        *whole, rest = os.pread(self.file, PIECE, self.at).split(b"\n")
        if any(len(line) >= MAX_RECORD_LINE for line in (*whole, rest)):
            raise Refusal(f"{self.path} has a line that is no record, after that with the index {self.index - 1}")
        count = max(len(whole) - (not rest), min(len(whole), answered - self.index))
        lines = [line + b"\n" for line in whole[: max(count, 0)]]
        text = b"".join(lines)
        return lines if os.pread(self.file, len(text), self.at) == text else []

    def close(self) -> None:
        os.close(self.file)

    def unwritten(self) -> int:
        """Returns how many bytes of the journal weren't written yet, a record that isn't durable among them."""
        return os.fstat(self.file).st_size - (self.at or 0)

    def wrote(self, line: bytes) -> None:
        assert self.at is not None
        self.at += len(line)
        self.index += 1


class AnswerPipe:
    """How many records of each shard have answers."""

    def __init__(self, path: Optional[str]) -> None:
        # (a pipe that nobody writes to yet can be opened)
        self.file = os.open(path, os.O_RDONLY | os.O_NONBLOCK | os.O_CLOEXEC) if path else None
        self.counts: dict[int, int] = {}
        self.rest = b""
        self.are_all = False

    def take(self) -> None:
        """Takes an answer, or several, if there are any."""
        if self.file is None:
            return
        try:
            piece = os.read(self.file, PIECE)
        except BlockingIOError:
            return
        self.are_all = not piece
        *whole, self.rest = (self.rest + piece).split(b"\n")
        for line in whole:
            answer = NAMED.fullmatch(line.decode("latin-1"))
            if answer:
                shard = int(answer[2])
                self.counts[shard] = max(self.counts.get(shard, 0), int(answer[3]) + 1)
