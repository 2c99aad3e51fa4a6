"""Orders at a socket, as a command gives them. Like `texts` it imports next to nothing."""
# (what `socket` stands over: half of the command's start would be the import of that one)
import _socket

from issuer_host.facts.refusal import Refusal, tell
from issuer_host.orders.texts import BEFORE, DONE, HOST, NOT_DONE, ORDER

# A host that has to load its journals first takes longer than this only if it hangs, and then it is killed.
SECONDS = 300.0
PIECE = 4096
# How it is said that a line was done by its number before.
DONE_BEFORE = "done before, by the same number"


class OrderConnection:
    """A connection to a socket of orders."""

    def __init__(self, path: str) -> None:
        self.to = _socket.socket(_socket.AF_UNIX, _socket.SOCK_STREAM | _socket.SOCK_CLOEXEC)
        self.to.settimeout(SECONDS)
        self.to.connect(path)
        self.unread = b""

    def ask(self, line: str) -> str:
        """Sends a line, and returns the reply; nothing if there is none."""
        try:
            self.to.sendall(line.encode() + b"\n")
            while b"\n" not in self.unread:
                piece = self.to.recv(PIECE)
                if not piece:
                    return ""
                self.unread += piece
        except OSError:
            return ""
        reply, _, self.unread = self.unread.partition(b"\n")
        return reply.decode("latin-1")


def connected(path: str) -> "OrderConnection | None":
    """Returns a connection, or None if nobody listens there."""
    try:
        return OrderConnection(path)
    except OSError:
        return None


def takers_of(paths: list[str]) -> list[OrderConnection]:
    """Returns the connections to those that listen, the one that serves first."""
    found = [taker for taker in map(connected, paths) if taker is not None]
    if not found:
        raise Refusal(
            f"nobody takes orders at {', '.join(paths)}: see that the unit runs, and that you are root or its user."
            " Over journals that no host serves give --config and --journal"
        )
    return sorted(found, key=lambda taker: taker.ask(HOST) != f"{HOST} 1")


class Taker:
    """Who takes the lines of an order."""

    def reply_of(self, number: str, line: str) -> str:
        """Returns what became of a line with its number."""
        raise NotImplementedError


class SocketTaker(Taker):
    """Who takes lines at some sockets."""

    def __init__(self, paths: list[str]) -> None:
        self.takers = takers_of(paths)

    def reply_of(self, number: str, line: str) -> str:
        """Returns what became of a line: by the first one, or by the next one if that has no journals."""
        reply = ""
        for taker in self.takers:
            reply = taker.ask(f"{ORDER} {number} {line}")
            if reply and not reply.startswith(f"{NOT_DONE} known"):
                break
        return reply


def order(taker: Taker, number: str, lines: list[str], first: int = 1) -> None:
    """Orders lines one after another, of which the first has a number, and prints their answers."""
    before = []
    for at, line in enumerate(lines, first):
        replied = taker.reply_of(f"{number}/{at}", line)
        word, _, said = replied.partition(" ")
        if word not in (DONE, BEFORE):
            again = f"; give the same order with --number {number}: no line is put twice"
            why = replied if replied.startswith(f"{NOT_DONE} done") else f"{replied or 'no reply came'}{again}"
            raise Refusal(f"line {at}: {why}")
        print(said, flush=True)
        if word == BEFORE:
            before.append(str(at))
    if before:
        some = f"line {before[0]} was" if len(before) == 1 else f"lines {', '.join(before)} were"
        tell("order", f"{some} {DONE_BEFORE}")
