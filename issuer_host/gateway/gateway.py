"""The gateway: its listeners, its connections and its hosts, from the first start to the end by SIGTERM."""

import asyncio
import functools
import resource
import signal
import ssl
from dataclasses import dataclass
from typing import Any, Optional, Protocol

from issuer_host.facts.statuses import Status
from issuer_host.gateway.admission import Admission, PortLimits
from issuer_host.gateway.connection import Connection
from issuer_host.gateway.dialler import DialledLink, Dialler
from issuer_host.gateway.figures import GatewayFigures
from issuer_host.gateway.figures_page import FiguresPage
from issuer_host.gateway.message_handler import MessageHandler
from issuer_host.gateway.log import Limited, NAME, fail, notice, warn
from issuer_host.gateway.message import Codec
from issuer_host.gateway.order_router import OrderRouter
from issuer_host.gateway.pending_logs import PendingLogs
from issuer_host.gateway.port import Port
from issuer_host.gateway.shares import shares_of
from issuer_host.gateway.traffic import TrafficHost, Traffic
from issuer_host.telling import service_manager
from issuer_host.telling.figures_server import FiguresServer

TICK_SECONDS, EXPIRE_SECONDS = 1.0, 0.02
# Of refused connections so many lines a second are told: a flood has no more than that of the log.
PORT_LINES_A_SECOND = 2
# Files beside the connections: two pipes a host, listeners, the loop.
OTHER_FILES = 128
# How long hosts may take to end once they have no more lines.
END_SECONDS = 5.0


@dataclass
class Bounds:
    """What bounds the gateway's memory and time."""

    frame: int = 4096
    of_connection: int = 256
    in_flight: int = 1024
    connections: int = 2000
    of_address: int = 512
    handshakes: int = 64
    # Sockets that have sent nothing.
    silent: int = 512
    seconds: float = 5.0
    frame_seconds: float = 10.0
    idle_seconds: float = 900.0
    # By TLS: until the first byte, and for a handshake.
    silent_seconds: float = 3.0
    handshake_seconds: float = 5.0

    def of_port(self, by_tls: bool) -> PortLimits:
        silent = self.silent_seconds if by_tls else self.idle_seconds
        counts = self.connections, self.of_address, self.handshakes, self.silent
        return PortLimits(*counts, silent, self.handshake_seconds)


@dataclass(frozen=True)
class Listener:
    """An address at which a dialect is spoken."""

    address: str
    port: int
    codec: Codec


class Partition(TrafficHost, Protocol):
    """A host that the gateway starts and ends."""

    tried: "asyncio.Future[None]"
    ended: "asyncio.Future[None]"
    refusal: Optional[int]

    def start(self) -> None:
        """Begins to answer."""

    def look(self) -> None:
        """Is called every second."""

    def stop(self) -> None:
        """Ends in order."""

    def end(self) -> None:
        """Kills what hasn't ended in time."""


class Beside(Protocol):
    """What stands beside the hosts."""

    async def begin(self) -> None:
        """Opens it, before a message is taken."""

    async def close(self) -> None:
        """Ends it, after the last message."""


class Gateway:
    """All of it."""

    def __init__(
        self,
        loop: asyncio.AbstractEventLoop,
        partitions: int,
        bounds: Bounds,
        context: Optional[ssl.SSLContext],
        is_ordered: bool,
        has_hosts: bool,
    ) -> None:
        """`is_ordered`: whether the hosts keep the order of a card's lines; `has_hosts`: whether they are its own."""
        self.loop, self.limits = loop, bounds
        raise_file_limit(bounds)
        self.figures, self.limited = GatewayFigures(partitions, has_hosts), Limited()
        self.figures.measure = self.measure
        self.traffic = Traffic(loop, bounds.seconds, is_ordered, self.figures)
        self.handler = MessageHandler(self.figures, self.limited, self.traffic.ask, self.made_room)
        self.hosts: list[Partition] = []
        limits, by_tls = bounds.of_port(context is not None), context is not None
        self.port = Port(loop, Admission(limits, by_tls), context, self.figures, Limited(PORT_LINES_A_SECOND))
        # The names of the partitions' journals; none where the hosts are behind a broker.
        self.journals: list[str] = []
        # Takes orders where the hosts are the gateway's own.
        self.orders: Optional[OrderRouter] = None
        # What stands beside the hosts, and is opened before them and ended after: the spool, the account.
        self.beside: list[Beside] = []
        # Other servers than that of switches: they begin once the hosts are ready, and end before them.
        self.servers: list[Beside] = []
        # Opens links to peers that are dialled.
        self.dialler = Dialler(loop, self.dialled, self.figures, None)
        self.logs = PendingLogs(loop)
        self.connections: set[Connection] = set()
        # Connections that have more messages, in the order in which they came to wait.
        self.waiting: dict[Connection, None] = {}
        self.is_stopping = self.is_resuming = False
        self.stopped = asyncio.Event()

    # What connections call

    def begun(self, connection: Connection) -> str:
        why_not = self.port.opened(connection) if connection.link is None else connection.link.opened(connection)
        if why_not or self.is_stopping:
            return why_not or "the gateway ends"
        self.connections.add(connection)
        self.figures.connections_begun += 1
        self.figures.connections = len(self.connections)
        return ""

    def dialled(self, codec: Codec, link: DialledLink) -> Connection:
        return Connection(self, codec, self.loop, link)

    def ended(self, connection: Connection, why: str) -> None:
        self.port.ended(connection)
        if connection.link is not None:
            connection.link.ended(connection, why)
        self.connections.discard(connection)
        self.waiting.pop(connection, None)
        self.figures.connections = len(self.connections)
        self.figures.count("connections_ended", ("why", why))

    def has_room(self, connection: Connection) -> bool:
        if self.figures.in_flight < self.limits.in_flight:
            return True
        self.waiting[connection] = None
        return False

    def made_room(self) -> None:
        """A message was answered: those that wait for room are taken in a moment."""
        if self.waiting and not self.is_resuming:
            self.is_resuming = True
            self.loop.call_soon(self.resume)

    def resume(self) -> None:
        """Lets connections that wait take messages, in their order, while there is room."""
        self.is_resuming = False
        while self.waiting and self.figures.in_flight < self.limits.in_flight:
            following = next(iter(self.waiting))
            del self.waiting[following]
            following.take()

    # From the start to the end

    async def run(self, listeners: list[Listener], figures_port: int) -> int:
        for number in (signal.SIGTERM, signal.SIGINT):
            self.loop.add_signal_handler(number, self.stop)
        for one in self.beside:
            await one.begin()
        await self.start_hosts()
        if self.orders is not None:
            self.orders.open()
        refusals = [host.refusal for host in self.hosts]
        if None not in refusals:
            fail("no host can be started")
            await self.end_hosts()
            return Status.USAGE if refusals[0] == Status.WORDS else refusals[0] or Status.REFUSED
        await self.listen(listeners, figures_port)
        for server in self.servers:
            await server.begin()
        self.dialler.start()
        service_manager.notify(NAME, "READY=1")
        self.tick()
        self.expire()
        await self.stopped.wait()
        await self.drain()
        return Status.OK

    async def start_hosts(self) -> None:
        """Starts all hosts, and waits until each is ready or has ended. A SIGTERM ends the wait."""
        self.traffic.begin(self.hosts, shares_of(self.limits.in_flight, self.limits.of_connection))
        for host in self.hosts:
            host.start()
        stopped = self.loop.create_task(self.stopped.wait())
        tried: set[asyncio.Future[None]] = {host.tried for host in self.hosts}
        while tried and not self.is_stopping:
            waited: set[asyncio.Future[Any]] = {stopped, *tried}
            await asyncio.wait(waited, return_when=asyncio.FIRST_COMPLETED)
            tried = {it for it in tried if not it.done()}
        stopped.cancel()

    async def listen(self, listeners: list[Listener], figures_port: int) -> None:
        for it in listeners:
            port = await self.port.listen(it.address, it.port, functools.partial(Connection, self, it.codec, self.loop))
            by_tls = " by TLS" if self.port.context else ""
            notice(f"{it.codec.dialect.name} on {it.address} port {port}{by_tls}")
        if figures_port:
            try:
                FiguresServer(figures_port, FiguresPage(self.loop, self.figures, self.journals)).start()
            except OSError as fault:
                warn(f"no figures: {fault}")

    def measure(self) -> None:
        """Sets what is measured of port and hosts when somebody asks for figures."""
        self.port.measure()
        self.dialler.measure()
        self.figures.signed_off = sum(not it.talk.session.is_signed_on for it in self.connections)
        now, counts = self.loop.time(), [0] * len(self.hosts)
        oldest = [0.0] * len(self.hosts)
        for question in self.traffic.open.values():
            counts[question.partition] += 1
            oldest[question.partition] = max(oldest[question.partition], now - question.began)
        for number in range(len(self.hosts)):
            self.figures.set("lines_in_flight", number, counts[number])
            self.figures.set("oldest_line_seconds", number, round(oldest[number], 3))

    def tick(self) -> None:
        self.loop.call_later(TICK_SECONDS, self.tick)
        now = self.loop.time()
        service_manager.notify(
            NAME, f"WATCHDOG=1\nSTATUS={len(self.connections)} connections, {self.figures.in_flight} messages in flight"
        )
        for number, host in enumerate(self.hosts):
            # (each has its own moment, so that no step of the loop has them all)
            self.loop.call_later(TICK_SECONDS * number / len(self.hosts), host.look)
        self.port.expire()
        for connection in list(self.connections):
            connection.look(now)

    def expire(self) -> None:
        self.loop.call_later(EXPIRE_SECONDS, self.expire)
        self.traffic.expire()

    def stop(self) -> None:
        """SIGTERM: takes no more connections and messages; what was taken is answered."""
        self.is_stopping = True
        self.stopped.set()

    async def drain(self) -> None:
        """Answers what is in flight, within its time limit, and ends connections and hosts."""
        service_manager.notify(NAME, "STOPPING=1")
        notice(f"ends: {self.figures.in_flight} messages are in flight")
        if self.orders is not None:
            self.orders.end()
        self.port.close()
        self.dialler.stop()
        for connection in list(self.connections):
            connection.take()
        until = self.loop.time() + self.limits.seconds + TICK_SECONDS
        while self.connections and self.loop.time() < until:
            await asyncio.sleep(EXPIRE_SECONDS)
        for connection in list(self.connections):
            connection.abort("the gateway ends")
        for one in (*self.servers, *reversed(self.beside)):
            await one.close()
        await self.end_hosts()

    async def end_hosts(self) -> None:
        for host in self.hosts:
            host.stop()
        await asyncio.wait([host.ended for host in self.hosts], timeout=END_SECONDS)
        for host in self.hosts:
            host.end()


def raise_file_limit(bounds: Bounds) -> None:
    """Makes room for as many files as there may be connections and silent sockets, or takes fewer of both."""
    sockets = bounds.connections + bounds.silent
    needed = sockets + OTHER_FILES
    try:
        soft, hard = resource.getrlimit(resource.RLIMIT_NOFILE)
        most = needed if hard == resource.RLIM_INFINITY else min(needed, hard)
        if soft != resource.RLIM_INFINITY and soft < most:
            resource.setrlimit(resource.RLIMIT_NOFILE, (most, hard))
    except (OSError, ValueError) as fault:
        warn(f"the limit of open files can't be raised: {fault}")
        return
    if most < needed:
        share = max(most - OTHER_FILES, 0) / sockets
        bounds.connections, bounds.silent = (max(int(share * it), 1) for it in (bounds.connections, bounds.silent))
        warn(f"{hard} files may be open, so {bounds.connections} connections are taken")
