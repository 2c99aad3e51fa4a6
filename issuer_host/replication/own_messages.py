"""The messages of records that a machine wrote and that its stream hasn't delivered, by their first lines.

A stream delivers a machine's messages in the order in which it wrote them. So one that comes before an earlier one says
that the earlier one was lost.
"""
import collections

RECORDS = "records "


class OwnMessages:
    """What was written, in its order."""

    def __init__(self) -> None:
        self.heads: "collections.deque[str]" = collections.deque()

    def wrote(self, text: str) -> None:
        if text.startswith(RECORDS):
            self.heads.append(head_of(text))

    def is_gap(self, text: str) -> bool:
        """Takes a message that came. Returns whether one that was written before it was lost."""
        head = head_of(text)
        if head not in self.heads:
            return False
        is_first = self.heads[0] == head
        while self.heads.popleft() != head:
            pass
        return not is_first

    def forget(self) -> None:
        """What was written is written again, or never."""
        self.heads.clear()


def head_of(text: str) -> str:
    return text.partition("\n")[0]
