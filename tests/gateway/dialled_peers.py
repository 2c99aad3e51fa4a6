"""Peers that a gateway dials: each listens, answers network messages as it is told, and asks by all of its links."""
import asyncio
import collections
import itertools
import os
import ssl
import sys
from collections.abc import Callable
from typing import Optional

from issuer_host.facts.paths import HOME

sys.path.append(os.path.join(HOME, "tools"))
from switch.link import Link
from switch.messages import Codec, Message

NETWORK = "80"
ACCEPTED = {"1987": "00", "1993": "800", "2003": "8000"}
SIGN_ON, SIGN_OFF, ECHO = "sign-on", "sign-off", "echo"


class DialledPeer:
    """A peer. `silent` and `refused` have the network messages that it doesn't answer, or answers with a refusal."""

    def __init__(self, codec: Codec, context: Optional[ssl.SSLContext] = None) -> None:
        self.codec, self.context = codec, context
        self.links: list[PeerLink] = []
        self.silent: set[str] = set()
        self.refused: set[str] = set()
        # The gateway's own messages that came, and how many connections there were.
        self.came: list[str] = []
        self.seen: list[Message] = []
        self.connections = 0
        self.strays: list[Message] = []
        self.server: Optional[asyncio.AbstractServer] = None
        self.port = 0
        self.turns = itertools.count()
        self.changed = asyncio.Event()

    async def listen(self) -> None:
        loop = asyncio.get_running_loop()
        self.server = await loop.create_server(
            lambda: PeerLink(self), "127.0.0.1", self.port, ssl=self.context, reuse_address=True
        )
        self.port = self.server.sockets[0].getsockname()[1]

    def close(self) -> None:
        """Listens no more. Links stay."""
        if self.server is not None:
            self.server.close()
            self.server = None

    def drop(self) -> None:
        for link in list(self.links):
            link.transport.abort()

    def name_of(self, message: Message) -> str:
        """Which of the gateway's messages this is."""
        rules = self.codec.rules["network"]
        code = message.get(rules["element"], "")
        return next((name for name in (SIGN_ON, SIGN_OFF, ECHO) if rules.get(name) == code), code)

    def take(self, link: "PeerLink", message: Message) -> None:
        """A network message of the gateway's."""
        name = self.name_of(message)
        self.came.append(name)
        self.seen.append(message)
        if name not in self.silent:
            self.answer(link, message, "40" if name in self.refused else ACCEPTED[self.codec.edition])
        self.changed.set()

    def answer(self, link: "PeerLink", message: Message, code: str) -> None:
        kind = message["type"]
        response: Message = {it: value for it, value in message.items() if it in (7, 11, 12, 24, 70)}
        response |= {"type": f"{kind[:2]}{int(kind[2]) + 1}{kind[3]}", 39: code[: self.codec.formats[39].size]}
        if "header" in message:
            response["header"] = self.codec.answered_header(message["header"])
        link.transport.write(self.codec.frame(response))

    async def ask(self, message: Message, seconds: float) -> Optional[Message]:
        """Asks by the next of its links."""
        if not self.links:
            return None
        return await self.links[next(self.turns) % len(self.links)].ask(message, seconds)

    def counts(self) -> "collections.Counter[str]":
        return collections.Counter(self.came)

    async def until(self, name: str, count: int, seconds: float = 30.0) -> bool:
        """Waits until so many of the gateway's messages came."""
        return await self.waits(lambda: self.came.count(name) >= count, seconds)

    async def waits(self, holds: Callable[[], bool], seconds: float = 30.0) -> bool:
        end = asyncio.get_running_loop().time() + seconds
        while not holds() and asyncio.get_running_loop().time() < end:
            await asyncio.sleep(0.01)
        return holds()


class PeerLink(Link):
    """A link of a peer: the gateway dialled it."""

    def __init__(self, peer: DialledPeer) -> None:
        super().__init__(peer.codec)
        self.peer = peer

    def connection_made(self, transport: asyncio.BaseTransport) -> None:
        super().connection_made(transport)
        self.peer.links.append(self)
        self.peer.connections += 1

    def connection_lost(self, exc: Optional[Exception]) -> None:
        super().connection_lost(exc)
        self.peer.strays += self.strays
        self.peer.links.remove(self)

    def take(self, response: Message) -> None:
        if response["type"][1] == NETWORK[0] and response["type"][2] == NETWORK[1]:
            self.peer.take(self, response)
        else:
            super().take(response)
