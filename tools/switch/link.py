"""A switch's connection to a gateway: requests out, responses in, correlated by trace number and reference number."""

import asyncio
import contextlib
import ssl
from collections.abc import Callable
from typing import NamedTuple, Optional, cast

from switch.messages import Codec, Message

LOOPBACK = "127.0.0.1"
Key = tuple[str, str]
Then = Callable[[Optional[Message]], None]


class Place(NamedTuple):
    """Where a gateway listens, and what it speaks there."""

    address: str
    port: int
    codec: Codec


def place_of(text: str) -> Place:
    """The place of `[ADDRESS:]PORT=DIALECT`."""
    place, _, name = text.partition("=")
    address, _, port = place.rpartition(":")
    return Place(address or LOOPBACK, int(port), Codec(name))


def key_of(message: Message) -> Key:
    return message.get(11, ""), message.get(37, "")


class Link(asyncio.Protocol):
    """A connection."""

    def __init__(self, codec: Codec) -> None:
        self.codec, self.unread = codec, b""
        self.asked: dict[Key, Then] = {}
        # What came without being asked for, or after it was given up.
        self.strays: list[Message] = []
        self.is_open = True
        self.closed = asyncio.get_running_loop().create_future()

    @classmethod
    async def open(cls, place: Place, context: Optional[ssl.SSLContext] = None) -> "Link":
        loop = asyncio.get_running_loop()
        made = loop.create_connection(lambda: cls(place.codec), place.address, place.port, ssl=context)
        return (await made)[1]

    def connection_made(self, transport: asyncio.BaseTransport) -> None:
        self.transport = cast(asyncio.Transport, transport)

    def data_received(self, data: bytes) -> None:
        self.unread += data
        at, width = 0, self.codec.width
        while (size := self.codec.frame_size(self.unread[at : at + width])) is not None:
            begin, at = at + width, at + width + max(size, 0)
            if len(self.unread) < at:
                at = begin - width
                break
            if size > 0:
                self.take(self.codec.decode(self.unread[begin:at]))
        self.unread = self.unread[at:]

    def take(self, response: Message) -> None:
        then = self.asked.pop(key_of(response), None)
        if then is None:
            self.strays.append(response)
        else:
            then(response)

    def connection_lost(self, exc: Optional[Exception]) -> None:
        self.is_open = False
        asked, self.asked = self.asked, {}
        for then in asked.values():
            then(None)
        if not self.closed.done():
            self.closed.set_result(None)

    def begin(self, key: Key, frame: bytes, then: Then) -> None:
        """Sends a request, and calls `then` with its response, or with None if the connection ends before."""
        if not self.is_open or self.transport.is_closing():
            then(None)
            return
        self.asked[key] = then
        self.transport.write(frame)

    async def ask(self, request: Message, seconds: float) -> Optional[Message]:
        """The response to a request, or None if none comes in time."""
        answer: asyncio.Future[Optional[Message]] = asyncio.get_running_loop().create_future()
        key = key_of(request)
        self.begin(key, self.codec.frame(request), lambda it: None if answer.done() else answer.set_result(it))
        try:
            return await asyncio.wait_for(answer, seconds)
        except asyncio.TimeoutError:
            self.asked.pop(key, None)
            return None

    async def close(self) -> None:
        self.transport.close()
        with contextlib.suppress(asyncio.TimeoutError):
            await asyncio.wait_for(asyncio.shield(self.closed), 5.0)
