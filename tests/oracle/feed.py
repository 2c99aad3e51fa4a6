"""Feeds: records of journals as lines with shard and index, and the standby that takes them (docs/formats)."""
import re

from oracle.host import WINDOW, Host
from oracle.journals import Journals, is_taken

# A feed line with its newline has so many bytes at most, and an index is below this.
LONGEST = 524
INDEX_END = 2**63
HEAD = re.compile(rb"(?P<shard>0|[1-9][0-9]*) (?P<index>0|[1-9][0-9]*) (?P<record>.*)", re.DOTALL)


class BadFeed(Exception):
    """The number, from 1, of the first line that can't be taken.

    It is no feed line, names no shard, or has a record that may not come next.
    """


def feed_lines(shard: int, record_lines: list[bytes]) -> list[bytes]:
    """The feed lines of a shard's records, each of which is given as its line with the newline."""
    return [b"%d %d %s" % (shard, index, line) for index, line in enumerate(record_lines)]


class Standby:
    """Takes feed lines into the journals that a host was loaded from."""

    def __init__(self, host: Host, journals: Journals) -> None:
        self.host = host
        self.journals = journals

    def take(self, number: int, line: bytes) -> None:
        """Takes a line of this number, with its newline.

        One whose index isn't the number of its shard's records changes nothing.
        """
        head = HEAD.fullmatch(line[:-1]) if len(line) <= LONGEST else None
        if head is None:
            raise BadFeed(number)
        shard = int(head["shard"])
        index = int(head["index"])
        if shard >= self.host.issuer.shards or index >= INDEX_END:
            raise BadFeed(number)
        if index != self.host.places[shard]:
            return
        if not is_taken(self.host, shard, head["record"], WINDOW):
            raise BadFeed(number)
        self.journals.append_line(shard, head["record"] + b"\n")

    def counts(self) -> str:
        """A line for each shard: its number, and how many records it has."""
        return "".join(f"{shard} {count}\n" for shard, count in enumerate(self.host.places))
