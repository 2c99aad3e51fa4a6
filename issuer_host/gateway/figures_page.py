"""The page of the gateway's figures, for the thread that serves it.

The disks are measured in that thread: one that hangs holds up no message. The counts are read in the gateway's loop.
"""

import asyncio
import concurrent.futures
from collections.abc import Callable, Sequence
from typing import Optional

from issuer_host.gateway.figures import Disk, GatewayFigures, disk_of

# For so long the thread waits for the gateway's loop.
LOOP_SECONDS = 5.0


class FiguresPage:
    """Gives the page, whenever it is called."""

    def __init__(
        self,
        loop: asyncio.AbstractEventLoop,
        figures: GatewayFigures,
        journals: Sequence[str],
        measured: Callable[[str], Optional[Disk]] = disk_of,
    ) -> None:
        """`journals` are the partitions' names of journals: none where the hosts are behind a broker."""
        self.loop, self.figures, self.journals, self.measured = loop, figures, journals, measured

    def __call__(self) -> bytes:
        disks = [self.measured(journal) for journal in self.journals]
        page = asyncio.run_coroutine_threadsafe(self.page_of(disks), self.loop)
        try:
            return page.result(LOOP_SECONDS)
        except concurrent.futures.TimeoutError:
            page.cancel()
            return b""

    async def page_of(self, disks: Sequence[Optional[Disk]]) -> bytes:
        """The page, in the gateway's loop."""
        for partition, disk in enumerate(disks):
            if disk is not None:
                self.figures.set_disk(partition, disk)
        return self.figures.text().encode()
