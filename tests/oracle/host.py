"""The host: what it answers to each line, and what its records say of each card.

docs/formats/lines.md has the answers, and the rules of script commands.
"""
from collections.abc import Callable
from typing import NamedTuple

from oracle.cards import application_cryptogram, fitting, reply_bytes
from oracle.chip_data import Ask, Queue, Refused, Request, is_command, read_line, read_request
from oracle.configuration import CardInfo, Issuer, approves
from oracle.keys import CardKeys

WINDOW = 256
# That of the records of a journal of version 1.
OLD_WINDOW = 64
WAITING = 64
EVER_QUEUED = 4_294_967_295


class Reply(NamedTuple):
    code: bytes
    approve: bool
    data: bytes

    def text(self) -> str:
        return f"{'yes' if self.approve else 'no'} {self.code.hex()} {self.data.hex()}"


class Decided(NamedTuple):
    request: Request
    reply: Reply


class Queued(NamedTuple):
    pan: str
    psn: str
    command: bytes


class Status(NamedTuple):
    pan: str
    psn: str
    status: int


Record = Decided | Queued | Status


class Scripts(NamedTuple):
    """How far a card's script commands have come.

    `done` counts those that are done, and `flight` has the last batch's counter and size.
    """

    done: int = 0
    flight: tuple[int, int] | None = None
    halted: bool = False

    def settled(self, request: Request) -> "Scripts":
        """After what a request on a new greatest counter says of the last batch."""
        if self.halted or self.flight is None:
            return self
        counter, size = self.flight
        if request.register == counter and request.script_count <= size:
            return self._replace(done=self.done + request.script_count)
        if request.register < counter:
            return self
        return self._replace(flight=None, halted=True)


class Row:
    """What the records of its shard say of one card."""

    def __init__(self, info: CardInfo, shard: int) -> None:
        self.info = info
        self.shard = shard
        self.decided: dict[int, tuple[Request, Reply, int]] = {}
        self.highest: int | None = None
        self.status = 0
        self.queue: list[bytes] = []
        self.scripts = Scripts()

    def is_newest(self, counter: int) -> bool:
        return self.highest is None or counter > self.highest

    def is_below(self, counter: int, window: int = WINDOW) -> bool:
        return self.highest is not None and counter + window <= self.highest

    def takes_command(self) -> bool:
        return len(self.queue) - self.scripts.done < WAITING and len(self.queue) < EVER_QUEUED

    def batch_for(self, request: Request) -> tuple[Scripts, list[bytes]]:
        """The scripts after the request, and the commands that go with its reply.

        There are none if its counter isn't the newest.
        """
        if not self.is_newest(request.atc):
            return self.scripts, []
        scripts = self.scripts.settled(request)
        if scripts.halted:
            return scripts, []
        batch = fitting(self.queue[scripts.done : scripts.done + WAITING])
        return scripts._replace(flight=(request.atc, len(batch))), batch

    def bytes_for(self, keys: CardKeys, request: Request, code: bytes, csu: bytes) -> bytes:
        scripts, batch = self.batch_for(request)
        return reply_bytes(self.info.method, keys, request, code, csu, scripts.done, batch)

    def add(self, record: Record, place: int) -> None:
        match record:
            case Decided(request, reply):
                self.scripts, _ = self.batch_for(request)
                self.highest = request.atc if self.highest is None else max(self.highest, request.atc)
                self.decided[request.atc] = request, reply, place
            case Queued():
                self.queue.append(record.command)
            case Status():
                self.status = record.status

    def text(self) -> str:
        flight = "-" if self.scripts.flight is None else "{} {}".format(*self.scripts.flight)
        return (
            f"{self.info.pan} {self.info.psn} hi {'-' if self.highest is None else self.highest} status {self.status}"
            f" queued {len(self.queue)} done {self.scripts.done} flight {flight}"
            f" {'halt' if self.scripts.halted else 'ok'}\n"
        )


class Host:
    """An issuer's rows, and how many records each shard has.

    `append(shard, record)` takes each new record.
    """

    def __init__(self, issuer: Issuer, append: Callable[[int, Record], None]) -> None:
        self.issuer = issuer
        self.append = append
        self.rows = [Row(info, number % issuer.shards) for number, info in enumerate(issuer.cards)]
        self.by_name = {(row.info.pan, row.info.psn): row for row in self.rows}
        self.places = [0] * issuer.shards

    def row_of(self, pan: str, psn: str) -> Row:
        row = self.by_name.get((pan, psn))
        if row is None:
            raise Refused("6")
        return row

    def check(self, request: Request) -> tuple[Row, CardKeys]:
        """The card and its master keys of the request's suite, or refusal 6 to 9."""
        row = self.row_of(request.pan, request.psn)
        if not request.is_for_an_arqc():
            raise Refused("7")
        return row, self.keys_for(row, request)

    def keys_for(self, row: Row, request: Request) -> CardKeys:
        """The card's master keys, under which the request's cryptogram is right, or refusal 8 or 9."""
        keys = self.issuer.keys_of(row.info, request.dki, request.suite)
        if keys is None:
            raise Refused(f"8 {request.dki:02x}")
        if application_cryptogram(keys.cryptograms, request) != request.cryptogram:
            raise Refused("9")
        return keys

    def take(self, row: Row, record: Record) -> int:
        """Counts a record that stands; its place."""
        place = self.places[row.shard]
        self.places[row.shard] += 1
        row.add(record, place)
        return place

    def record(self, row: Row, record: Record) -> int:
        self.append(row.shard, record)
        return self.take(row, record)

    def ask(self, request: Request) -> str:
        row, keys = self.check(request)
        if row.is_below(request.atc):
            raise Refused(f"10 {row.highest}")
        if request.atc in row.decided:
            first, reply, place = row.decided[request.atc]
            if first != request:
                raise Refused(f"11 {row.shard} {place}")
            return f"kept {row.shard} {place} {reply.text()}"
        decision = self.issuer.decide(row.status, request)
        data = row.bytes_for(keys, request, decision.code, decision.csu)
        reply = Reply(decision.code, decision.approve, data)
        return f"fresh {row.shard} {self.record(row, Decided(request, reply))} {reply.text()}"

    def queue(self, pan: str, psn: str, command: bytes) -> str:
        row = self.row_of(pan, psn)
        if not is_command(command):
            raise Refused("14")
        if not row.takes_command():
            raise Refused("13")
        return f"queued {row.shard} {self.record(row, Queued(pan, psn, command))}"

    def set_status(self, pan: str, psn: str, status: int) -> str:
        row = self.row_of(pan, psn)
        return f"set {row.shard} {self.record(row, Status(pan, psn, status))}"

    def answer(self, line: bytes) -> str:
        """The answer to a line, without its newline."""
        try:
            asked = read_line(line)
            if isinstance(asked, Ask):
                return self.ask(read_request(asked.data))
            return self.queue(*asked) if isinstance(asked, Queue) else self.set_status(*asked)
        except Refused as refusal:
            return f"refused {refusal}"

    def accepts(self, shard: int, record: Record, window: int) -> bool:
        """Takes a record of a journal with this window where it may come next in this shard; whether it may."""
        try:
            match record:
                case Decided(request, reply):
                    row, keys = self.check(request)
                    may_come = self.may_be_decided(row, keys, request, reply, window)
                case Queued():
                    row = self.row_of(record.pan, record.psn)
                    may_come = row.takes_command()
                case Status():
                    row = self.row_of(record.pan, record.psn)
                    may_come = True
        except Refused:
            return False
        if not may_come or row.shard != shard:
            return False
        self.take(row, record)
        return True

    def may_be_decided(self, row: Row, keys: CardKeys, request: Request, reply: Reply, window: int) -> bool:
        """Whether the counter is a new one in the window, and the issuer makes this reply.

        The reply is made for its response code, whatever the issuer's table was.
        """
        if row.is_below(request.atc, window) or request.atc in row.decided:
            return False
        csu = reply.data[10:14] if row.info.method == 2 else bytes(4)
        if len(csu) < 4 or row.info.method == 2 and approves(csu) != reply.approve:
            return False
        return row.bytes_for(keys, request, reply.code, csu) == reply.data

    def show(self) -> str:
        return "".join(row.text() for row in self.rows)
