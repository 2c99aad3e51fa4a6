"""The gateway's listening sockets: each accepted socket is a connection of its dialect once it has sent its first byte.

By TLS a handshake begins only when it is its turn, so a socket that sends nothing has neither buffers nor a task.
"""

import asyncio
import contextlib
import errno
import socket
import ssl
from asyncio import sslproto
from collections.abc import Callable
from typing import Optional, cast

from issuer_host.gateway import admission
from issuer_host.gateway.admission import Admission, Arrival, Stage
from issuer_host.gateway.connection import Connection
from issuer_host.gateway.figures import GatewayFigures
from issuer_host.gateway.log import Limited
from issuer_host.gateway.peer_names import PeerNames

BACKLOG = 1024
# So many sockets are accepted before anything else gets its turn.
ACCEPTS = 64
# What the system buffers of a connection, each way.
SOCKET_BYTES = 1 << 16
# asyncio has a buffer of 256 KiB for each connection by TLS. A record of TLS has 16 KiB at most.
TLS_BYTES = 1 << 14
# How long nothing is accepted once no file is left for one more.
PAUSE_SECONDS = 0.1
NO_FILES = (errno.EMFILE, errno.ENFILE, errno.ENOBUFS, errno.ENOMEM)

Make = Callable[[], Connection]


class Waiting:
    """The socket of an arrival that isn't open yet, and what makes its connection."""

    __slots__ = ("socket", "make")

    def __init__(self, accepted: socket.socket, make: Make) -> None:
        self.socket, self.make = accepted, make


class Port:
    """All listening sockets, and what was accepted from them."""

    def __init__(
        self,
        loop: asyncio.AbstractEventLoop,
        held: Admission,
        context: Optional[ssl.SSLContext],
        figures: GatewayFigures,
        limited: Limited,
    ) -> None:
        self.loop, self.admission, self.context = loop, held, context
        self.figures, self.limited = figures, limited
        # By TLS: whose certificates are accepted.
        self.names = PeerNames()
        self.listening: list[socket.socket] = []
        self.waiting: dict[Arrival, Waiting] = {}
        # Of connections from their handshake on.
        self.arrivals: dict[Connection, Arrival] = {}
        self.handshakes: set["asyncio.Task[None]"] = set()
        if context is not None:
            setattr(sslproto.SSLProtocol, "max_size", TLS_BYTES)

    async def listen(self, address: str, port: int, make: Make) -> int:
        """Listens at an address, and returns the port."""
        found = await self.loop.getaddrinfo(address, port, type=socket.SOCK_STREAM, flags=socket.AI_PASSIVE)
        for family, where in dict.fromkeys((it[0], it[4]) for it in found):
            taken = socket.create_server(where[:2], family=family, backlog=BACKLOG)
            taken.setblocking(False)
            # What is accepted from it has these settings too: its buffers, and that an answer leaves at once. (The
            # system would hold an answer back until the peer has acknowledged the last one. asyncio sets this too, but
            # only where a socket was made with the protocol's number.)
            taken.setsockopt(socket.SOL_SOCKET, socket.SO_SNDBUF, SOCKET_BYTES)
            taken.setsockopt(socket.SOL_SOCKET, socket.SO_RCVBUF, SOCKET_BYTES)
            taken.setsockopt(socket.IPPROTO_TCP, socket.TCP_NODELAY, 1)
            self.listening.append(taken)
            self.loop.add_reader(taken, self.accept, taken, make)
        return int(self.listening[-1].getsockname()[1])

    # From a socket to a connection

    def accept(self, listening: socket.socket, make: Make) -> None:
        for _ in range(ACCEPTS):
            try:
                accepted, where = listening.accept()
            except (BlockingIOError, InterruptedError, ConnectionAbortedError):
                return
            except OSError as fault:
                if fault.errno not in NO_FILES:
                    raise
                self.make_room(listening, make)
                return
            accepted.setblocking(False)
            self.arrive(accepted, str(where[0]), make)

    def make_room(self, listening: socket.socket, make: Make) -> None:
        """No file is left: the oldest silent socket makes room, or nothing is accepted for a moment."""
        oldest = self.admission.oldest_silent()
        if oldest is not None:
            self.refuse(oldest, admission.REPLACED)
            return
        self.loop.remove_reader(listening)
        self.loop.call_later(PAUSE_SECONDS, self.accept_again, listening, make)

    def accept_again(self, listening: socket.socket, make: Make) -> None:
        if listening in self.listening:
            self.loop.add_reader(listening, self.accept, listening, make)

    def arrive(self, accepted: socket.socket, address: str, make: Make) -> None:
        why = self.admission.why_full(address)
        if why:
            accepted.close()
            self.count_refused(why, address)
            return
        arrival = self.admission.arrive(address, self.loop.time())
        self.waiting[arrival] = Waiting(accepted, make)
        self.loop.add_reader(accepted, self.look, arrival)
        self.look(arrival)
        surplus = self.admission.surplus(address)
        if surplus is not None:
            # (its first byte may have come in this very moment)
            self.look(surplus)
            if surplus.stage is Stage.SILENT:
                self.refuse(surplus, admission.REPLACED)

    def look(self, arrival: Arrival) -> None:
        """Sees whether a silent socket has sent its first byte, or has ended."""
        accepted = self.waiting[arrival].socket
        try:
            first = accepted.recv(1, socket.MSG_PEEK)
        except (BlockingIOError, InterruptedError):
            return
        except OSError:
            first = b""
        self.loop.remove_reader(accepted)
        if not first:
            self.drop(arrival)
            return
        why = self.admission.speak(arrival, self.loop.time())
        if why:
            self.refuse(arrival, why)
        elif self.context is None:
            self.begin(arrival)
        else:
            self.begin_handshakes()

    def begin_handshakes(self) -> None:
        while True:
            following = self.admission.next_handshake(self.loop.time())
            if following is None:
                return
            self.begin(following)

    def begin(self, arrival: Arrival) -> None:
        waited = self.waiting.pop(arrival)
        connection = waited.make()
        self.arrivals[connection] = arrival
        task = self.loop.create_task(self.connect(connection, waited.socket))
        self.handshakes.add(task)
        task.add_done_callback(self.handshakes.discard)

    async def connect(self, connection: Connection, accepted: socket.socket) -> None:
        """Gives a connection its transport, by a handshake if there is TLS."""
        seconds = self.admission.limits.handshake_seconds if self.context else None
        why = "the peer left"
        try:
            await cast(asyncio.BaseEventLoop, self.loop).connect_accepted_socket(
                lambda: connection, accepted, ssl=self.context, ssl_handshake_timeout=seconds
            )
        except OSError as fault:
            why = str(fault.strerror or fault)
        arrival = self.arrivals.get(connection)
        if arrival is not None and arrival.stage is not Stage.OPEN:
            accepted.close()
            self.count_refused(admission.BAD_HANDSHAKE, f"{arrival.address}: {why}")
            self.ended(connection)

    # What connections say

    def opened(self, connection: Connection) -> str:
        """Takes a connection; or says why not."""
        arrival = self.arrivals[connection]
        self.admission.open(arrival)
        self.begin_handshakes()
        certificate = connection.transport.get_extra_info("peercert") if connection.transport is not None else None
        if certificate is None or self.names.accept(certificate):
            return ""
        self.count_refused(admission.BAD_NAME, arrival.address)
        return admission.BAD_NAME

    def ended(self, connection: Connection) -> None:
        arrival = self.arrivals.pop(connection, None)
        if arrival is not None:
            self.admission.forget(arrival)
            self.begin_handshakes()

    # The end of sockets

    def refuse(self, arrival: Arrival, why: str) -> None:
        self.count_refused(why, arrival.address)
        self.drop(arrival)

    def drop(self, arrival: Arrival) -> None:
        """Closes a socket that is no connection yet."""
        self.admission.forget(arrival)
        accepted = self.waiting.pop(arrival).socket
        self.loop.remove_reader(accepted)
        with contextlib.suppress(OSError):
            accepted.close()

    def count_refused(self, why: str, whose: str) -> None:
        self.figures.count("refused", ("why", why))
        self.limited.tell(f"a connection is refused: {why} ({whose})")

    def expire(self) -> None:
        """Closes sockets that were silent, or waited for a handshake, for too long."""
        for arrival, why in list(self.admission.overdue(self.loop.time())):
            self.refuse(arrival, why)

    def measure(self) -> None:
        """Sets the figures of the port."""
        self.figures.handshakes, self.figures.silent = self.admission.shaking, len(self.admission.silent)

    def close(self) -> None:
        """Accepts no more, and closes what is no connection yet."""
        for taken in self.listening:
            self.loop.remove_reader(taken)
            taken.close()
        self.listening = []
        for arrival in list(self.waiting):
            self.drop(arrival)
