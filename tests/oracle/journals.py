"""Journal lines, and the files that keep them: version 2, and the old version 1 (docs/formats/journals.md)."""
import os
import re
from typing import BinaryIO

from oracle.chip_data import Request, is_command, is_decimal, is_issuer_data
from oracle.host import OLD_WINDOW, WINDOW, Decided, Host, Queued, Record, Reply, Status

VERSION_LINE = b"v2\n"


def padded_pan(pan: str) -> str:
    return pan.ljust(20, "f")


def request_text(request: Request) -> str:
    """The 85 bytes of a request, in hexadecimal."""
    parts = [
        bytes.fromhex(padded_pan(request.pan) + request.psn),
        request.aip,
        request.atc.to_bytes(2, "big"),
        request.tvr,
        request.date,
        request.kind,
        request.amount,
        request.other,
        request.country,
        request.currency,
        request.number,
        bytes([request.cid]),
        request.data,
        request.cryptogram,
    ]
    return b"".join(parts).hex()


def record_line(record: Record) -> bytes:
    """The line of a record, with its newline."""
    match record:
        case Decided(request, reply):
            text = f"d {request_text(request)} {reply.code.hex()} {int(reply.approve)} {reply.data.hex()}"
        case Queued(pan, psn, command):
            text = f"q {padded_pan(pan)} {psn} {command.hex()}"
        case Status(pan, psn, status):
            text = f"s {padded_pan(pan)} {psn} {status}"
    return text.encode() + b"\n"


# The sizes in bytes of a request's fields in a record, after the PAN.
SIZES = [1, 2, 2, 5, 3, 1, 6, 6, 2, 2, 4, 1, 32, 8]

HEX = "[0-9a-f]"
LINE = re.compile(
    rf"d (?P<request>{HEX}{{170}}) (?P<code>{HEX}{{4}}) (?P<approve>[01]) (?P<data>({HEX}{HEX}){{1,160}})"
    rf"|q (?P<queue_pan>[0-9]{{8,19}}f+) (?P<queue_psn>[0-9]{{2}}) (?P<command>({HEX}{HEX}){{4,68}})"
    rf"|s (?P<set_pan>[0-9]{{8,19}}f+) (?P<set_psn>[0-9]{{2}}) (?P<status>[0-9])".encode()
)


def read_pan(text: str) -> str | None:
    """The PAN that is filled up to 20 characters, or None."""
    return text.rstrip("f") if len(text) == 20 and re.fullmatch("[0-9]{8,19}f+", text) else None


def read_request(text: str) -> Request | None:
    """The request of these 85 bytes in hexadecimal, or None where they are none."""
    pan = read_pan(text[:20])
    rest = bytes.fromhex(text[20:])
    values: list[bytes] = []
    for size in SIZES:
        values.append(rest[:size])
        rest = rest[size:]
    psn, aip, atc, tvr, date, kind, amount, other, country, currency, number, cid, data, cryptogram = values
    if pan is None or not is_decimal(psn) or not is_decimal(amount) or not is_issuer_data(data):
        return None
    counter = int.from_bytes(atc, "big")
    return Request(
        pan,
        psn.hex(),
        aip,
        counter,
        tvr,
        date,
        kind,
        amount,
        other,
        country,
        currency,
        number,
        cid[0],
        data,
        cryptogram,
    )


def read_record(line: bytes) -> Record | None:
    """The record whose line this is, without its newline, or None."""
    whole = LINE.fullmatch(line)
    if whole is None:
        return None
    part = {name: text.decode() for name, text in whole.groupdict().items() if text is not None}
    if "request" in part:
        request = read_request(part["request"])
        reply = Reply(bytes.fromhex(part["code"]), part["approve"] == "1", bytes.fromhex(part["data"]))
        return Decided(request, reply) if request else None
    if "command" in part:
        pan = read_pan(part["queue_pan"])
        command = bytes.fromhex(part["command"])
        return Queued(pan, part["queue_psn"], command) if pan and is_command(command) else None
    pan = read_pan(part["set_pan"])
    return Status(pan, part["set_psn"], int(part["status"])) if pan else None


class BadLine(Exception):
    """The shard and the line, from 1, that can't stand there.

    It is no record, may not come there, or isn't that of the migrated journal.
    """


class BadOldLine(Exception):
    """The same of a shard's old journal."""


def whole_lines(text: bytes) -> list[bytes]:
    """The lines that end with a newline, without it."""
    return text.split(b"\n")[:-1]


def first_other_line(text: bytes, expected: bytes) -> int:
    """The number, from 1, of the line with the first byte in which two texts differ.

    Neither text begins the other.
    """
    at = next(at for at, (one, other) in enumerate(zip(text, expected)) if one != other)
    return text[:at].count(b"\n") + 1


class Journals:
    """The journals of all shards, as files, the old ones beside them.

    It neither locks nor syncs them: it says what they hold, not when that is safe.
    """

    def __init__(self) -> None:
        self.olds: list[BinaryIO] = []
        self.files: list[BinaryIO] = []

    def open_old(self, name: str) -> None:
        """Opens one more shard's old journal; one that isn't there is made."""
        self.olds.append(opened(name))

    def open(self, name: str) -> None:
        """Opens one more shard's journal; one that isn't there is made."""
        self.files.append(opened(name))

    def load(self, host: Host, shard: int) -> None:
        """Gives a shard's records to the host.

        First come those of the old journal, of which the journal holds a copy or the beginning of one, which is
        completed; then those behind the copy. Bytes behind the last newline are cut away.
        """
        old = self.olds[shard].read()
        old = old[: old.rfind(b"\n") + 1]
        for number, line in enumerate(whole_lines(old), 1):
            if not is_taken(host, shard, line, OLD_WINDOW):
                raise BadOldLine(shard, number)
        file = self.files[shard]
        copy = VERSION_LINE + old
        text = file.read()
        if copy.startswith(text):
            file.write(copy[len(text) :])
            return
        if not text.startswith(copy):
            raise BadLine(shard, first_other_line(text, copy))
        for number, line in enumerate(whole_lines(text[len(copy) :]), copy.count(b"\n") + 1):
            if not is_taken(host, shard, line, WINDOW):
                raise BadLine(shard, number)
        whole = text.rfind(b"\n") + 1
        file.truncate(whole)
        file.seek(whole)

    def append(self, shard: int, record: Record) -> None:
        self.append_line(shard, record_line(record))

    def append_line(self, shard: int, line: bytes) -> None:
        self.files[shard].write(line)

    def record_lines(self, shard: int) -> list[bytes]:
        """The lines of a loaded shard's records, each with its newline."""
        self.files[shard].seek(len(VERSION_LINE))
        return [line + b"\n" for line in whole_lines(self.files[shard].read())]

    def close(self) -> None:
        for file in self.olds + self.files:
            file.close()


def opened(name: str) -> BinaryIO:
    return os.fdopen(os.open(name, os.O_RDWR | os.O_CREAT, 0o666), "r+b")


def is_taken(host: Host, shard: int, line: bytes, window: int) -> bool:
    """Whether the line is that of a record that may come next, which the host then has."""
    record = read_record(line)
    return record is not None and host.accepts(shard, record, window)
