"""Serves the page on the loopback: GET alone, for a browser of this machine or behind a tunnel to it."""
from collections.abc import Awaitable, Callable

from aiohttp import web

from issuer_host.status.page import page_of, part_of
from issuer_host.status.page_texts import SCRIPT, STYLE
from issuer_host.status.watch import StatusWatch

ADDRESS = "127.0.0.1"
HOSTS = ("127.0.0.1", "localhost", "[::1]")
# Nothing comes from elsewhere, and nothing goes there.
HEADERS = {
    "Content-Security-Policy": "default-src 'none'; style-src 'self'; script-src 'self'; connect-src 'self'; "
    "frame-ancestors 'none'; base-uri 'none'; form-action 'none'",
    "Cache-Control": "no-store",
    "X-Content-Type-Options": "nosniff",
    "Referrer-Policy": "no-referrer",
}
Handler = Callable[[web.Request], Awaitable[web.StreamResponse]]


async def guarded(request: web.Request, handler: Handler) -> web.StreamResponse:
    """Refuses what isn't read by this machine's name: a page of elsewhere can't have a browser ask here."""
    if request.headers.get("Host", "").rpartition(":")[0] not in HOSTS and request.headers.get("Host") not in HOSTS:
        return web.Response(status=403, text="ask by 127.0.0.1 or localhost\n", headers=HEADERS)
    if request.method != "GET":
        return web.Response(status=405, text="GET alone\n", headers={**HEADERS, "Allow": "GET"})
    answer = await handler(request)
    answer.headers.update(HEADERS)
    return answer


class StatusServer:
    """The page's paths."""

    def __init__(self, watch: StatusWatch) -> None:
        self.watch = watch

    def application(self) -> web.Application:
        made = web.Application(middlewares=[web.middleware(guarded)], client_max_size=1024)
        for path, handler in {"/": self.page, "/part": self.part, "/style.css": style, "/script.js": script}.items():
            made.router.add_route("*", path, handler)
        return made

    async def page(self, _: web.Request) -> web.Response:
        return web.Response(text=page_of(self.watch.view, self.watch.look_number), content_type="text/html")

    async def part(self, _: web.Request) -> web.Response:
        return web.Response(text=part_of(self.watch.view, self.watch.look_number), content_type="text/html")


async def style(_: web.Request) -> web.Response:
    return web.Response(text=STYLE, content_type="text/css")


async def script(_: web.Request) -> web.Response:
    return web.Response(text=SCRIPT, content_type="text/javascript")


async def serve(watch: StatusWatch, port: int) -> None:
    """Serves the page, and looks, for as long as it isn't cancelled."""
    runner = web.AppRunner(StatusServer(watch).application(), access_log=None)
    await runner.setup()
    try:
        await web.TCPSite(runner, ADDRESS, port).start()
        await watch.run()
    finally:
        await runner.cleanup()
