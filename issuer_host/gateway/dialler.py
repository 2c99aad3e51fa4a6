"""Links that the gateway dials: each is opened again when it ends, after waits that grow."""

import asyncio
import random
import ssl
from collections.abc import Callable
from typing import NamedTuple, Optional

from issuer_host.gateway.connection import Connection
from issuer_host.gateway.figures import GatewayFigures
from issuer_host.gateway.log import notice, warn
from issuer_host.gateway.message import Codec
from issuer_host.gateway.peer_names import PeerNames

# The first wait, and the longest one. Of each a random half is left out, so that links don't come all at once.
FIRST_SECONDS, MOST_SECONDS = 0.5, 60.0
# How long a connection and its handshake may take.
OPEN_SECONDS = 10.0
BAD_NAME = "its certificate has no accepted name"


class DialledPlace(NamedTuple):
    """Who is dialled, and what is spoken there."""

    host: str
    port: int
    codec: Codec

    @property
    def name(self) -> str:
        return f"{self.host}:{self.port}"


class Waits:
    """Waits, each twice as long as the one before up to the longest, and then less a random part of its half."""

    def __init__(self, chance: Callable[[], float] = random.random) -> None:
        self.chance, self.seconds = chance, FIRST_SECONDS

    def next(self) -> float:
        seconds, self.seconds = self.seconds, min(2 * self.seconds, MOST_SECONDS)
        return seconds * (1 + self.chance()) / 2

    def reset(self) -> None:
        self.seconds = FIRST_SECONDS


class DialledLink:
    """A link that is kept up."""

    def __init__(self, place: DialledPlace, names: PeerNames) -> None:
        self.place, self.names, self.waits = place, names, Waits()
        self.connection: Optional[Connection] = None
        self.since = 0.0
        self.ending: "asyncio.Future[str]" = asyncio.get_running_loop().create_future()

    @property
    def is_signed_on(self) -> bool:
        return self.connection is not None and self.connection.talk.session.is_signed_on

    def opened(self, connection: Connection) -> str:
        """A connection is up. Returns why it isn't taken, or nothing."""
        assert connection.transport is not None
        certificate = connection.transport.get_extra_info("peercert")
        if certificate is not None and not self.names.accept(certificate):
            return BAD_NAME
        self.connection, self.since = connection, connection.loop.time()
        notice(f"link {self.place.name}: connected")
        return ""

    def ended(self, connection: Connection, why: str) -> None:
        """A connection has ended. After one that served, the waits begin anew."""
        session = connection.talk.session
        if connection is self.connection:
            has_served = connection.loop.time() - self.since > MOST_SECONDS
            if session.is_signed_on and (session.network.sign_on or has_served):
                self.waits.reset()
        self.connection = None
        if not self.ending.done():
            self.ending.set_result(why)


class Dialler:
    """All links that are dialled."""

    def __init__(
        self,
        loop: asyncio.AbstractEventLoop,
        make: Callable[[Codec, DialledLink], Connection],
        figures: GatewayFigures,
        context: Optional[ssl.SSLContext],
    ) -> None:
        self.loop, self.make, self.figures, self.context = loop, make, figures, context
        self.links: list[DialledLink] = []
        self.tasks: list["asyncio.Task[None]"] = []

    def start(self) -> None:
        self.tasks = [self.loop.create_task(self.keep(link)) for link in self.links]

    def stop(self) -> None:
        """Dials no more. Connections end by themselves."""
        for task in self.tasks:
            task.cancel()

    async def keep(self, link: DialledLink) -> None:
        """Opens a link whenever it isn't up."""
        while True:
            link.ending = self.loop.create_future()
            why = await self.open(link) or await link.ending
            seconds = link.waits.next()
            warn(f"link {link.place.name}: {why}; dialled again in {seconds:.1f} s")
            await asyncio.sleep(seconds)

    async def open(self, link: DialledLink) -> str:
        """Dials once. Returns why there is no connection, or nothing."""
        place = link.place
        made = self.loop.create_connection(
            lambda: self.make(place.codec, link),
            place.host,
            place.port,
            ssl=self.context,
            server_hostname=place.host if self.context else None,
        )
        try:
            await asyncio.wait_for(made, OPEN_SECONDS)
        except asyncio.TimeoutError:
            why = f"no connection within {OPEN_SECONDS:.0f} s"
        except Exception as fault:
            # (whatever it was, the link is dialled again)
            why = f"no connection: {getattr(fault, 'strerror', None) or fault or type(fault).__name__}"
        else:
            why = ""
        self.figures.count("link_dials", ("link", place.name), ("outcome", "failed" if why else "connected"))
        return why

    def measure(self) -> None:
        """Sets the figures of links: several connections to one peer are counted together."""
        for link in self.links:
            for name in ("links_up", "links_signed_on"):
                self.figures.labelled[name][(("link", link.place.name),)] = 0
        for link in self.links:
            labels = (("link", link.place.name),)
            self.figures.labelled["links_up"][labels] += link.connection is not None
            self.figures.labelled["links_signed_on"][labels] += link.is_signed_on
