"""Shows the state of all partitions: a page in a browser, or the same in a terminal.

usage: status [--sources FILE] [--port N | --terminal | --once]

--sources   the file of the sources of figures (/etc/issuer/status): a line for each, NAME URL. The name is a machine's,
            or a unit's, as issuer@0; the first URL of a name has its partitions' figures
--port      the page's port on the loopback (9990)
--terminal  draws the state in the terminal, again and again, until it is interrupted
--once      looks for two seconds, prints the state once, and ends with 0 if all is well, 1 if something is to do soon,
            and 2 if it is to do now

It reads figures alone, and changes nothing. From another machine open the page through a tunnel:

    ssh -L 9990:127.0.0.1:9990 MACHINE        and then http://127.0.0.1:9990/
"""
import asyncio
import contextlib
import signal
from collections.abc import Sequence
from typing import NamedTuple

from issuer_host.facts.refusal import Refusal, tell
from issuer_host.facts.service_words import ServiceWords
from issuer_host.facts.statuses import Status
from issuer_host.status import sources
from issuer_host.status.view import View

NAME = "status"
# Two looks make a rate.
LOOKS_ONCE, BETWEEN_SECONDS = 2, 1.5


class StatusOptions(NamedTuple):
    """The words of the command."""

    sources: str
    port: int
    terminal: bool
    once: bool


def options_of(words: Sequence[str]) -> StatusOptions:
    parser = ServiceWords(NAME, __doc__)
    parser.add_argument("--sources", default="/etc/issuer/status")
    which = parser.add_mutually_exclusive_group()
    which.add_argument("--port", type=int, default=9990)
    which.add_argument("--terminal", action="store_true")
    which.add_argument("--once", action="store_true")
    return StatusOptions(**vars(parser.parse_args(words)))


async def once(found: "list[sources.FigureSource]") -> int:
    import aiohttp
    from rich.console import Console

    from issuer_host.status.terminal import drawn_of
    from issuer_host.status.watch import SECONDS, StatusWatch

    watch = StatusWatch(found)
    async with aiohttp.ClientSession(timeout=aiohttp.ClientTimeout(total=SECONDS)) as session:
        for look in range(LOOKS_ONCE):
            await asyncio.sleep(BETWEEN_SECONDS if look else 0)
            await watch.look(session)
    screen = Console()
    screen.print(drawn_of(watch.view, screen.width))
    return watch.view.status


async def live(found: "list[sources.FigureSource]") -> int:
    from rich.live import Live

    from issuer_host.status.terminal import drawn_of
    from issuer_host.status.watch import StatusWatch

    watch = StatusWatch(found)
    with Live(screen=True, auto_refresh=False) as screen:

        def draw(view: View) -> None:
            screen.update(drawn_of(view, screen.console.width), refresh=True)

        await watch.run(draw)
    return Status.OK


async def page(found: "list[sources.FigureSource]", port: int) -> int:
    from issuer_host.status.server import serve
    from issuer_host.status.watch import StatusWatch

    await serve(StatusWatch(found), port)
    return Status.OK


async def shown(options: StatusOptions) -> int:
    found = sources.read(options.sources)
    if options.once:
        return await once(found)
    return await (live(found) if options.terminal else page(found, options.port))


async def run(options: StatusOptions) -> int:
    task = asyncio.ensure_future(shown(options))
    for number in (signal.SIGTERM, signal.SIGINT):
        asyncio.get_running_loop().add_signal_handler(number, task.cancel)
    with contextlib.suppress(asyncio.CancelledError):
        return await task
    return Status.OK


def main(words: Sequence[str]) -> int:
    options = options_of(words)
    try:
        return int(asyncio.run(run(options)))
    except Refusal as refusal:
        tell(NAME, str(refusal))
        return Status.REFUSED
    except ImportError as fault:
        tell(NAME, f"{fault}: install python3-aiohttp, python3-jinja2 and python3-rich")
        return Status.REFUSED
    except OSError as fault:
        tell(NAME, f"the page can't be served at port {options.port}: {fault.strerror}")
        return Status.REFUSED
