"""Asks all sources at once, again and again, and keeps the view of what they said last."""
import asyncio
import time
from collections.abc import Callable, Sequence
from typing import Optional

import aiohttp

from issuer_host.status.figures_text import FiguresText
from issuer_host.status.history import History
from issuer_host.status.sources import FigureSource
from issuer_host.status.view import View, view_of

# A source that hasn't answered after so long doesn't.
SECONDS = 0.8
EVERY_SECONDS = 1.0
# Bytes of one page of figures.
MOST_BYTES = 16 << 20


class StatusWatch:
    """Looks at all sources."""

    def __init__(self, sources: Sequence[FigureSource], clock: Callable[[], float] = time.time) -> None:
        self.sources, self.clock = sources, clock
        self.history = History([source.name for source in sources], time.monotonic())
        self.look_number = 0
        self.view = view_of(self.history.take(time.monotonic(), clock(), {source.name: None for source in sources}))

    async def run(self, seen: Callable[[View], None] = lambda view: None) -> None:
        """Looks for as long as it isn't cancelled."""
        limit = aiohttp.ClientTimeout(total=SECONDS)
        async with aiohttp.ClientSession(timeout=limit, auto_decompress=False) as session:
            while True:
                began = time.monotonic()
                await self.look(session)
                seen(self.view)
                await asyncio.sleep(max(0.1, EVERY_SECONDS - (time.monotonic() - began)))

    async def look(self, session: aiohttp.ClientSession) -> None:
        pages = await asyncio.gather(*(figures_of(session, source) for source in self.sources))
        found = {source.name: page for source, page in zip(self.sources, pages)}
        self.view = view_of(self.history.take(time.monotonic(), self.clock(), found))
        self.look_number += 1


async def figures_of(session: aiohttp.ClientSession, source: FigureSource) -> Optional[FiguresText]:
    """Returns what a source says; None if its first page doesn't come."""
    texts = await asyncio.gather(*(text_of(session, url) for url in source.urls))
    return None if texts[0] is None else FiguresText(text for text in texts if text is not None)


async def text_of(session: aiohttp.ClientSession, url: str) -> Optional[str]:
    try:
        async with session.get(url, allow_redirects=False) as answer:
            if answer.status != 200:
                return None
            return await whole(answer.content)
    except (aiohttp.ClientError, asyncio.TimeoutError, OSError):
        return None


async def whole(content: aiohttp.StreamReader) -> str:
    """Returns what comes up to a number of bytes."""
    data = bytearray()
    async for piece in content.iter_any():
        data += piece
        if len(data) > MOST_BYTES:
            break
    return data.decode("utf-8", "replace")
