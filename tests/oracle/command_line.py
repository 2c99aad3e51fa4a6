"""The program's words, statuses and last lines (docs/formats/words-and-statuses.md)."""
import re
from collections.abc import Callable, Iterator
from typing import BinaryIO

from oracle.clearing import Book
from oracle.configuration import LIMIT, Fault, Issuer, read_configuration
from oracle.dol import BadData, BadDol, fill_dol
from oracle.feed import BadFeed, Standby, feed_lines
from oracle.host import Host
from oracle.journals import BadLine, BadOldLine, Journals
from oracle.pin import pin_line
from oracle.world import play

LINES = 1_048_576
BYTES = 2_147_483_648

COMMANDS: dict[str, tuple[set[str], set[str]]] = {
    "serve": ({"--config", "--requests", "--journal"}, {"--callers"}),
    "show": ({"--config", "--journal"}, set()),
    "clear": ({"--config", "--clearing", "--journal"}, set()),
    "export": ({"--config", "--journal"}, set()),
    "standby": ({"--config", "--feed", "--journal"}, set()),
    "world": ({"--cards", "--steps", "--seed"}, set()),
    "fill": ({"--dol", "--data"}, set()),
    "pin": ({"--config", "--pan", "--psn", "--dki", "--salt", "--pin"}, set()),
}


class Stop(Exception):
    """A run ends with this status, and this last line after `stop`."""

    def __init__(self, status: int, *more: object) -> None:
        super().__init__(status)
        self.status = status
        self.last_line = f"stop {' '.join(map(str, (status, *more)))}\n"


def number(options: dict[str, str], name: str, least: int, most: int, default: str = "") -> int:
    text = options.get(name, default)
    if not re.fullmatch("0|[1-9][0-9]*", text) or not least <= int(text) <= most:
        raise Stop(1)
    return int(text)


def spelled(options: dict[str, str], name: str) -> bytes:
    if not re.fullmatch("([0-9A-Fa-f]{2}){1,1024}", options[name]):
        raise Stop(1)
    return bytes.fromhex(options[name])


def matching(options: dict[str, str], name: str, pattern: str) -> str:
    if not re.fullmatch(pattern, options[name], re.ASCII):
        raise Stop(1)
    return options[name]


def filled_line(dol: bytes, data: bytes) -> str:
    try:
        return f"{fill_dol(dol, data).hex()}\n"
    except BadDol as fault:
        raise Stop(9, fault.at) from fault
    except BadData as fault:
        raise Stop(10, fault.at) from fault


def read_words(words: list[str]) -> tuple[str, dict[str, str]]:
    """The command and its options by name."""
    command, *pairs = words or [""]
    if command not in COMMANDS or len(pairs) % 2:
        raise Stop(1)
    needed, possible = COMMANDS[command]
    names = pairs[::2]
    values = pairs[1::2]
    if len(set(names)) < len(names) or not needed <= set(names) <= needed | possible:
        raise Stop(1)
    if any(value == "" or value.startswith("-") for value in values):
        raise Stop(1)
    return command, dict(zip(names, values))


def load_issuer(options: dict[str, str]) -> Issuer:
    try:
        with open(options["--config"], "rb") as file:
            data = file.read(LIMIT + 1)
    except OSError as fault:
        raise Stop(3) from fault
    try:
        return read_configuration(data)
    except Fault as fault:
        raise Stop(2, *fault.args) from fault


def pin_text(options: dict[str, str]) -> str:
    """The text of the line that queues a PIN change."""
    pan = matching(options, "--pan", "[0-9]{8,19}")
    psn = matching(options, "--psn", "[0-9]{2}")
    dki, salt = (
        bytes.fromhex(matching(options, f"--{name}", f"[0-9A-Fa-f]{{{digits}}}"))
        for name, digits in (("dki", 2), ("salt", 16))
    )
    digits = matching(options, "--pin", "[0-9]{4,12}")
    issuer = load_issuer(options)
    if issuer.confidentiality_of(pan, psn, dki[0]) is None:
        raise Stop(12)
    return f"{pin_line(issuer, pan, psn, dki[0], salt, digits)}\n"


def load(options: dict[str, str], journals: Journals) -> Host:
    """The host as it stands after its configuration and its journals."""
    issuer = load_issuer(options)
    host = Host(issuer, journals.append)
    for opens, ending in ((journals.open_old, ""), (journals.open, ".v2")):
        for shard in range(issuer.shards):
            try:
                opens(f"{options['--journal']}.{shard:02d}{ending}")
            except OSError as fault:
                raise Stop(5, shard) from fault
    for shard in range(issuer.shards):
        try:
            journals.load(host, shard)
        except BadOldLine as fault:
            raise Stop(6, shard, "old", fault.args[1]) from fault
        except BadLine as fault:
            raise Stop(6, *fault.args) from fault
    return host


def lines_of(name: str) -> Iterator[tuple[int, bytes]]:
    """The lines of a file within the limits, each with its number, and its newline where it has one."""
    try:
        with open(name, "rb") as file:
            taken = 0
            for line_number, line in enumerate(file, 1):
                taken += len(line)
                if line_number > LINES or taken > BYTES:
                    raise Stop(8, line_number)
                yield line_number, line
    except OSError as fault:
        raise Stop(3) from fault


def answer_all(answer: Callable[[bytes], str], name: str, out: BinaryIO) -> None:
    """Writes the answer to each line of a file.

    Several callers would give the same answers if no two of them ask of one shard.
    """
    for _, line in lines_of(name):
        out.write(answer(line.removesuffix(b"\n")).encode() + b"\n")


def take_all(standby: Standby, name: str) -> None:
    """Takes the whole lines of a feed; bytes behind the last newline are no line."""
    try:
        for line_number, line in lines_of(name):
            if line.endswith(b"\n"):
                standby.take(line_number, line)
    except BadFeed as fault:
        raise Stop(11, *fault.args) from fault


def run_command(words: list[str], out: BinaryIO) -> None:
    command, options = read_words(words)
    if command == "world":
        cards = number(options, "--cards", 1, 4096)
        steps = number(options, "--steps", 0, min(200_000, 65_535 * cards))
        out.write(play(cards, steps, number(options, "--seed", 0, 2**32 - 1)).encode())
        return
    if command == "fill":
        out.write(filled_line(spelled(options, "--dol"), spelled(options, "--data")).encode())
        return
    if command == "pin":
        out.write(pin_text(options).encode())
        return
    number(options, "--callers", 1, 16, "1")
    journals = Journals()
    try:
        host = load(options, journals)
        if command == "show":
            out.write(host.show().encode())
        elif command == "clear":
            book = Book(host)
            answer_all(book.judge, options["--clearing"], out)
            out.write(book.rest().encode())
        elif command == "export":
            for shard in range(host.issuer.shards):
                out.writelines(feed_lines(shard, journals.record_lines(shard)))
        elif command == "standby":
            standby = Standby(host, journals)
            take_all(standby, options["--feed"])
            out.write(standby.counts().encode())
        else:
            answer_all(host.answer, options["--requests"], out)
    finally:
        journals.close()


def run(words: list[str], out: BinaryIO) -> int:
    """Runs a command, writes its text, and gives its status."""
    try:
        run_command(words, out)
    except Stop as stop:
        out.write(stop.last_line.encode())
        return stop.status
    return 0
