"""The clearing check: transaction certificates (TC) held against the decisions of the journals.

docs/formats/lines.md has the forms of the lines and of the verdicts.
"""
from oracle.chip_data import Ask, Refused, Request, read_line, read_request
from oracle.host import Host, Reply

# Bits 8 and 7 of the CID, and which kinds of cryptogram are cleared.
KIND = 0xC0
TC = 0x40
AAC = 0x00


class Book:
    """The decisions that a host's journals have, and which of them some line certified."""

    def __init__(self, host: Host) -> None:
        self.host = host
        self.certified: set[tuple[int, int]] = set()

    def judge(self, line: bytes) -> str:
        """The verdict on a line, without its newline."""
        try:
            return self.verdict(cleared_request(line))
        except Refused as refusal:
            return f"refused {refusal}"

    def verdict(self, request: Request) -> str:
        row = self.host.row_of(request.pan, request.psn)
        kind = request.cid & KIND
        if kind not in (TC, AAC):
            raise Refused("17")
        self.host.keys_for(row, request)
        if request.atc not in row.decided:
            return "lone"
        asked, reply, place = row.decided[request.atc]
        word = word_of(request, asked, reply)
        if word == "certified":
            self.certified.add((row.shard, place))
        return f"{word} {row.shard} {place}"

    def rest(self) -> str:
        """The lines after the verdicts: the approved records that no line certified, and the numbers of both."""
        approved = {
            (row.shard, place) for row in self.host.rows for _, reply, place in row.decided.values() if reply.approve
        }
        left = sorted(approved - self.certified)
        return (
            "".join(f"open {shard} {place}\n" for shard, place in left) + f"total {len(self.certified)} {len(left)}\n"
        )


def cleared_request(line: bytes) -> Request:
    """The request that a line clears: one of the form `A`."""
    asked = read_line(line)
    if not isinstance(asked, Ask):
        raise Refused("1 1")
    return read_request(asked.data)


def word_of(request: Request, asked: Request, reply: Reply) -> str:
    """The first word of the verdict on a line whose counter was decided."""
    if differs(request, asked):
        return "differs"
    if request.cid & KIND == AAC:
        return "declined"
    return "certified" if reply.approve else "against"


def differs(request: Request, asked: Request) -> bool:
    """Whether what is cleared isn't what was decided."""
    return any(getattr(request, name) != getattr(asked, name) for name in ("amount", "currency", "date", "number"))
