"""The socket at which a bridge, a node or a gateway takes orders: of its own user, and of root.

A peer sends lines, and each gets a line back:

    host                    `host 1` if a host runs that is asked requests, and `host 0` otherwise; of several machines
                            `host 0 MACHINE` names the one that serves
    probe PARTITION         `answers ANSWER` once the partition's host answered a line of no form; `no answer: WHY`
    order NUMBER LINE       `done ANSWER`; `before ANSWER` if it was done before; `not done: WHY`; `not known: WHY` if
                            the same has to be sent again to learn what became of it
"""
import contextlib
import os
import socket
import stat
import struct
from collections.abc import Callable
from typing import Optional

from issuer_host.facts.troubles import Level, say
from issuer_host.host.event_loop import Loop
from issuer_host.orders.order import Order, order_of
from issuer_host.orders.texts import HOST, NO_ANSWER, NOT_DONE, ORDER, PROBE

# So many peers are connected at a time; one more waits.
CONNECTIONS = 16
# So many more wait until the bridge takes them: one past these is refused at once, however idle the others are.
WAITING = 128
MAX_LINE = 1024
# What the kernel says of a peer: its process, user and group.
CREDENTIALS = struct.Struct("3i")

OnProbe = Callable[[str, Callable[[str], object]], object]
OnOrder = Callable[[Order, int, Callable[[str], object]], object]


class Peer:
    """A connection."""

    def __init__(self, connection: socket.socket) -> None:
        connection.setblocking(False)
        self.connection = connection
        said = connection.getsockopt(socket.SOL_SOCKET, socket.SO_PEERCRED, CREDENTIALS.size)
        self.uid: int = CREDENTIALS.unpack(said)[1]
        self.text = b""
        # How many of its orders have no reply yet.
        self.owed = 0

    def reply_to_order(self, text: str) -> None:
        self.owed -= 1
        self.reply(text)

    def reply(self, text: str) -> None:
        """Sends a line, unless the peer is gone or doesn't read."""
        with contextlib.suppress(OSError):
            self.connection.send(text.encode() + b"\n")


class OrderSocket:
    def __init__(self, loop: Loop, path: str, has_host: Callable[[], bool], on_order: OnOrder, name: str) -> None:
        self.loop = loop
        self.path = path
        self.has_host = has_host
        self.on_order = on_order
        # Who tells of it.
        self.name = name
        # Returns the machine that serves where this one doesn't; nothing if there are no others, or none is known.
        self.served_by: Callable[[], str] = str
        # Puts a probe to the host of a partition.
        self.on_probe: OnProbe = no_probe
        self.peers: dict[int, Peer] = {}
        self.listening: Optional[socket.socket] = None

    def open(self) -> None:
        """Listens, if there is a path. Who can't goes on without orders, and says so."""
        if not self.path:
            return
        try:
            self.listening = listening_at(self.path)
        except OSError as fault:
            say(self.name, Level.WARNING, f"no orders are taken: {self.path}: {fault.strerror}")
            return
        self.loop.add_handler(self.listening.fileno(), self.accept, self.loop.READ)

    def accept(self, _: int, __: int) -> None:
        assert self.listening is not None
        try:
            peer = Peer(self.listening.accept()[0])
        except OSError:
            return
        if peer.uid not in (0, os.geteuid()) or not self.has_room():
            peer.reply(f"{NOT_DONE} done: this user may not order, or too many do")
            peer.connection.close()
            return
        self.peers[peer.connection.fileno()] = peer
        self.loop.add_handler(peer.connection.fileno(), self.read, self.loop.READ)

    def has_room(self) -> bool:
        """Whether one more peer may connect. Among too many the one that has been idle for longest is closed."""
        if len(self.peers) >= CONNECTIONS:
            idle = next((number for number, peer in self.peers.items() if not peer.owed), None)
            if idle is not None:
                self.close(idle)
        return len(self.peers) < CONNECTIONS

    def read(self, number: int, _: int) -> None:
        # (the one that was heard last is the last one)
        peer = self.peers[number] = self.peers.pop(number)
        try:
            piece = peer.connection.recv(MAX_LINE)
        except BlockingIOError:
            return
        except OSError:
            piece = b""
        *lines, peer.text = (peer.text + piece).split(b"\n")
        if not piece or len(peer.text) > MAX_LINE:
            self.close(number)
        for line in lines:
            self.take(peer, line.decode("latin-1"))

    def take(self, peer: Peer, line: str) -> None:
        """Takes a line of a peer."""
        word, _, rest = line.partition(" ")
        if word == HOST and not rest:
            peer.reply(f"{HOST} {int(self.has_host())} {self.served_by()}".rstrip())
            return
        if word == PROBE:
            peer.owed += 1
            self.on_probe(rest, peer.reply_to_order)
            return
        number, _, text = rest.partition(" ")
        order = order_of(number, text) if word == ORDER else None
        if order is None:
            peer.reply(f"{NOT_DONE} done: the line is no order of the form Q or S with a number")
            return
        peer.owed += 1
        self.on_order(order, peer.uid, peer.reply_to_order)

    def close(self, number: int) -> None:
        peer = self.peers.pop(number)
        self.loop.remove_handler(number)
        peer.connection.close()

    def end(self) -> None:
        """Takes no more orders."""
        if self.listening is not None:
            self.loop.remove_handler(self.listening.fileno())
            self.listening.close()
            self.listening = None
            with contextlib.suppress(OSError):
                os.remove(self.path)


def no_probe(_: str, reply: Callable[[str], object]) -> None:
    reply(f"{NO_ANSWER}: nothing is probed here")


def listening_at(path: str) -> socket.socket:
    """Returns a socket at a path, which this user alone may connect to. What a process before left there is removed."""
    with contextlib.suppress(FileNotFoundError):
        if stat.S_ISSOCK(os.lstat(path).st_mode):
            os.remove(path)
    found = socket.socket(socket.AF_UNIX, socket.SOCK_STREAM | socket.SOCK_CLOEXEC)
    before = os.umask(0o177)
    try:
        found.bind(path)
        found.listen(WAITING)
        found.setblocking(False)
    except OSError:
        found.close()
        raise
    finally:
        os.umask(before)
    return found
