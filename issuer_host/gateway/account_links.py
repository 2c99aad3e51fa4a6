"""How the account is reached: by a Unix socket with an object a line, or by HTTP on the loopback."""

import asyncio
import contextlib
import ipaddress
import json
import urllib.parse
from collections.abc import Callable, Mapping
from typing import Any, Optional, cast

from issuer_host.gateway.account import Account
from issuer_host.gateway.log import notice, warn

UNIX = "unix:"
# Between two tries to connect; the greatest line; and what is buffered for an account that doesn't read.
RETRY_SECONDS, LINE_BYTES, BUFFER_BYTES = (0.05, 1.0), 1 << 16, 1 << 20
# So many requests by HTTP are under way at a time, each for so long at most.
HTTP_CONNECTIONS, HTTP_SECONDS = 64, 10.0


class SocketLink(asyncio.Protocol):
    """A Unix socket. Objects have the member `id`, which each answer repeats: answers come in any order."""

    def __init__(self, loop: asyncio.AbstractEventLoop, path: str, account: Account) -> None:
        self.loop, self.path, self.account = loop, path, account
        self.transport: Optional[asyncio.Transport] = None
        self.unread = b""
        self.is_ending = False
        self.wait = RETRY_SECONDS[0]
        self.work: asyncio.Task[None] = loop.create_task(self.connect())

    async def connect(self) -> None:
        """Connects, and tries it again until it can."""
        while not self.is_ending:
            try:
                await self.loop.create_unix_connection(lambda: self, self.path)
                return
            except OSError as fault:
                if self.wait == RETRY_SECONDS[0]:
                    warn(f"no connection to the account at {self.path}: {fault.strerror or fault}")
                await asyncio.sleep(self.wait)
                self.wait = min(2 * self.wait, RETRY_SECONDS[1])

    def connection_made(self, transport: asyncio.BaseTransport) -> None:
        self.transport, self.unread, self.wait = cast(asyncio.Transport, transport), b"", RETRY_SECONDS[0]
        notice(f"the account is connected at {self.path}")

    def connection_lost(self, exc: Optional[Exception]) -> None:
        self.transport = None
        self.account.lost()
        if not self.is_ending:
            self.work = self.loop.create_task(self.connect())

    def data_received(self, data: bytes) -> None:
        *lines, self.unread = (self.unread + data).split(b"\n")
        for line in lines:
            self.take(line)
        if len(self.unread) > LINE_BYTES and self.transport is not None:
            self.account.limited.tell(
                f"the account's answer has more than {LINE_BYTES} bytes: the connection is closed"
            )
            self.transport.abort()

    def take(self, line: bytes) -> None:
        with contextlib.suppress(ValueError, RecursionError):
            said = json.loads(line)
            if isinstance(said, dict) and type(said.get("id")) is int:
                self.account.take(said["id"], said)
                return
        self.account.limited.tell("a line of the account is no object with an `id`")

    def send(self, number: int, said: Mapping[str, Any]) -> bool:
        if self.transport is None or self.transport.get_write_buffer_size() > BUFFER_BYTES:
            return False
        self.transport.write(json.dumps({"id": number, **said}).encode() + b"\n")
        return True

    async def close(self) -> None:
        self.is_ending = True
        self.work.cancel()
        if self.transport is not None:
            self.transport.close()


class HttpLink:
    """HTTP: an object is posted, and the answer is the response's body."""

    def __init__(self, loop: asyncio.AbstractEventLoop, url: str, account: Account) -> None:
        import aiohttp

        self.loop, self.url, self.account = loop, url, account
        self.fault: type[Exception] = aiohttp.ClientError
        self.session = aiohttp.ClientSession(
            connector=aiohttp.TCPConnector(limit=HTTP_CONNECTIONS),
            timeout=aiohttp.ClientTimeout(total=HTTP_SECONDS),
        )
        self.tasks: set[asyncio.Task[None]] = set()

    def send(self, number: int, said: Mapping[str, Any]) -> bool:
        task = self.loop.create_task(self.post(number, said))
        self.tasks.add(task)
        task.add_done_callback(self.tasks.discard)
        return True

    async def post(self, number: int, said: Mapping[str, Any]) -> None:
        found: object = None
        try:
            async with self.session.post(self.url, json={"id": number, **said}) as response:
                if response.status == 200:
                    found = json.loads(await response.read())
        except (OSError, ValueError, asyncio.TimeoutError, self.fault) as fault:
            self.account.limited.tell(f"the account at {self.url} doesn't answer: {fault!r}")
        self.account.take(number, found if isinstance(found, dict) else {})

    async def close(self) -> None:
        for task in self.tasks:
            task.cancel()
        await self.session.close()


def check_place(place: str) -> None:
    """Refuses what is neither a Unix socket nor HTTP on the loopback: a ValueError says why."""
    if place.startswith(UNIX) and len(place) > len(UNIX):
        return
    try:
        url = urllib.parse.urlsplit(place)
        # (a port that is none is a ValueError)
        is_loopback = (
            url.port != 0 and url.hostname == "localhost" or ipaddress.ip_address(url.hostname or "").is_loopback
        )
    except ValueError:
        is_loopback = False
    if not is_loopback or url.scheme != "http":
        raise ValueError(
            f"--account is unix:PATH or http://127.0.0.1:PORT/PATH, and not {place}: for another machine put a proxy"
            " with TLS before it on the loopback"
        )


def linked(loop: asyncio.AbstractEventLoop, place: str, account: Account) -> "Callable[[], SocketLink | HttpLink]":
    """What makes the link to a place, once the loop runs."""
    if place.startswith(UNIX):
        return lambda: SocketLink(loop, place[len(UNIX) :], account)
    return lambda: HttpLink(loop, place, account)
