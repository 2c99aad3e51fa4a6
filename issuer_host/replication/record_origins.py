"""From which message of a stream a record came: what a person needs who finds out why a machine refuses it."""
import collections
from typing import NamedTuple, Optional

from issuer_host.facts.refusal import Refusal

PAGE = 'docs/operate/nodes.md, "A record that a machine refuses"'


class Origin(NamedTuple):
    """A message of a stream, and the machine whose barrier counted before it."""

    stream: str
    offset: int
    machine: str


NOWHERE = Origin("", 0, "")


class RefusedRecord(Exception):
    """A record that counts, and that the journals of this machine can't take."""


def refusal_of(origin: Origin, why: str) -> Refusal:
    """Returns why a partition stops: a record of this message counts, and isn't taken here."""
    return Refusal(
        f"message {origin.offset} of {origin.stream}, which {origin.machine} wrote, has a record that this machine"
        f" refuses: {why}. Nothing of it is taken here. Compare the machines' configurations: {PAGE}"
    )


class FedLines:
    """From which message each line came that a run of standby was given."""

    def __init__(self) -> None:
        # The number of a message's last line, from 1, and the message.
        self.ends: "collections.deque[tuple[int, Origin]]" = collections.deque()

    def begin(self) -> None:
        """Another run gets lines: its first one has the number 1."""
        self.ends.clear()

    def add(self, line: int, origin: Origin) -> None:
        if self.ends and self.ends[-1][1] == origin:
            self.ends.pop()
        self.ends.append((line, origin))

    def of(self, line: int) -> Optional[Origin]:
        return next((origin for end, origin in self.ends if line <= end), None)

    def forget(self, offset: int) -> None:
        """Forgets the messages up to an offset: what counts of them is in the journals."""
        while self.ends and self.ends[0][1].offset <= offset:
            self.ends.popleft()
