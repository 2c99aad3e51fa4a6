"""HTTP for own channels and for tests: `POST /authorise` asks the host about chip data, and answers in JSON.

deploy/openapi.json describes it. It is served by aiohttp, on the loopback or at a Unix socket.
"""

import asyncio
import ipaddress
import json
import os
from typing import Any, NamedTuple, Optional, Union

from aiohttp import web

from issuer_host.facts import answers
from issuer_host.facts.paths import HOME
from issuer_host.facts.refusal_reasons import reason_of
from issuer_host.facts.request_lines import objects_of, pan_of_line
from issuer_host.gateway import mapping, requests
from issuer_host.gateway.dialect import Dialect
from issuer_host.gateway.message_handler import Exchange, MessageHandler
from issuer_host.gateway.log import notice
from issuer_host.gateway.message import Message
from issuer_host.gateway.requests import MAX_CHIP_DATA, RequestLine
from issuer_host.gateway.responses import Decision, decision_of

UNIX = "unix:"
DESCRIPTION = os.path.join(HOME, "deploy", "openapi.json")
# A body's greatest size, how many requests may be under way, and how long a connection may be silent.
BODY_BYTES, IN_FLIGHT, KEEP_ALIVE_SECONDS = 8192, 256, 60.0
REQUEST, REPEAT = "100", "101"
MEMBERS = {"chip", "tags", "repeat", "reference", "decline"}
REFERENCE_PLACES = 12
# The objects of a reply for the card: the issuer's authentication data, and scripts. The data begin with the cryptogram
# (ARPC): by method 1 it has 8 bytes of 10, and by method 2 4 bytes of 8.
AUTHENTICATION, SCRIPTS = b"\x91", (b"\x71", b"\x72")
ARPC_BYTES = {10: 8, 8: 4}


class BadRequest(ValueError):
    """A body that is no request, and why."""


class HttpPlace(NamedTuple):
    """Where HTTP is spoken: a path, or an address and a port; and the dialect whose codes it has."""

    path: str
    address: str
    port: int
    dialect: Dialect


class HttpQuestion(NamedTuple):
    """What a body asks."""

    line: RequestLine
    message: Message


class HttpPeer:
    """A request by HTTP, as their handler sees it."""

    def __init__(self, dialect: Dialect, address: str, response: "asyncio.Future[Message]") -> None:
        self.dialect, self.address, self.response = dialect, address, response

    def respond(self, message: Message, began: float) -> str:
        if not self.response.done():
            self.response.set_result(message)
        return message.code

    def hold(self) -> None:
        """The server has it in flight."""

    def let_go(self) -> None:
        """It was answered."""


class HttpPort:
    """The server."""

    def __init__(
        self, loop: asyncio.AbstractEventLoop, place: HttpPlace, handler: MessageHandler, end_seconds: float
    ) -> None:
        """At its end it waits so long for the answers to what it has taken."""
        self.loop, self.place, self.handler, self.end_seconds = loop, place, handler, end_seconds
        self.in_flight = 0
        self.runner: Optional[web.AppRunner] = None

    # From the start to the end

    async def begin(self) -> None:
        app = web.Application(client_max_size=BODY_BYTES)
        app.add_routes([web.post("/authorise", self.authorise), web.get("/openapi.json", self.describe)])
        self.runner = web.AppRunner(app, access_log=None, keepalive_timeout=KEEP_ALIVE_SECONDS)
        await self.runner.setup()
        site: Union[web.UnixSite, web.TCPSite]
        if self.place.path:
            before = os.umask(0o177)
            try:
                site = web.UnixSite(self.runner, self.place.path, shutdown_timeout=self.end_seconds)
                await site.start()
            finally:
                os.umask(before)
            notice(f"HTTP at {self.place.path}")
        else:
            site = web.TCPSite(self.runner, self.place.address, self.place.port, shutdown_timeout=self.end_seconds)
            await site.start()
            port = self.runner.addresses[0][1]
            notice(f"HTTP on {self.place.address} port {port}")

    async def close(self) -> None:
        if self.runner is not None:
            await self.runner.cleanup()

    # Requests

    async def describe(self, _: web.Request) -> web.StreamResponse:
        return web.FileResponse(DESCRIPTION, headers={"Content-Type": "application/json"})

    async def authorise(self, request: web.Request) -> web.Response:
        if self.in_flight >= IN_FLIGHT:
            return error(503, "too many requests are under way: send it again", {"Retry-After": "1"})
        self.in_flight += 1
        try:
            return await self.answer(request)
        finally:
            self.in_flight -= 1

    async def answer(self, request: web.Request) -> web.Response:
        dialect, began = self.place.dialect, self.loop.time()
        try:
            asked = asked_of(json.loads(await request.read()), dialect)
        except web.HTTPRequestEntityTooLarge:
            return error(413, f"a body has {BODY_BYTES} bytes at most")
        except BadRequest as why:
            return error(400, str(why))
        except (ValueError, RecursionError):
            return error(400, "the body is no JSON object")
        response: "asyncio.Future[Message]" = self.loop.create_future()
        peer = HttpPeer(dialect, f"http {request.remote or 'at a socket'}", response)
        exchange = Exchange(peer, asked.message, began)
        self.handler.figures.count("messages", ("what", mapping.DECIDE))
        self.handler.put(exchange, asked.line)
        message = await response
        self.handler.figures.responded(message.code, self.loop.time() - began)
        return response_of(exchange, message)


def error(status: int, why: str, headers: Optional[dict[str, str]] = None) -> web.Response:
    return web.json_response({"error": why}, status=status, headers=headers)


def asked_of(body: object, dialect: Dialect) -> HttpQuestion:
    """What a body asks; BadRequest if it asks nothing."""
    if not isinstance(body, dict) or set(body) - MEMBERS:
        raise BadRequest(f"the body is an object with members among {', '.join(sorted(MEMBERS))}")
    if ("chip" in body) == ("tags" in body):
        raise BadRequest("give either `chip`, the chip data in hexadecimal, or `tags`, an object of them")
    data = bytes_of(body["chip"], "chip") if "chip" in body else joined(body["tags"])
    if not data or len(data) > MAX_CHIP_DATA:
        raise BadRequest(f"the chip data have {len(data)} bytes: 1 to {MAX_CHIP_DATA} are possible")
    is_repeat, reference = body.get("repeat", False), body.get("reference", "")
    if type(is_repeat) is not bool:
        raise BadRequest("`repeat` is true or false")
    if not isinstance(reference, str) or len(reference) > REFERENCE_PLACES or not (reference + "0").isalnum():
        raise BadRequest(f"`reference` is a text of {REFERENCE_PLACES} letters and digits at most")
    text = f"A {data.hex()}"
    try:
        pan = pan_of_line(text)
    except ValueError:
        # (the host says what is wrong)
        pan = ""
    line: Optional[RequestLine] = RequestLine(text, pan, is_repeat)
    if "decline" in body:
        line = declined(RequestLine(text, pan, is_repeat), body["decline"])
    assert line is not None
    message = Message(f"{mapping.EDITIONS.index(dialect.edition)}{REPEAT if is_repeat else REQUEST}")
    if reference:
        message.elements[mapping.RRN] = reference
    return HttpQuestion(line, message)


def declined(line: RequestLine, status: object) -> RequestLine:
    """The line, declined by a card's status."""
    found = requests.declined_by(line, status) if type(status) is int and 0 <= status <= 9 else None
    if found is None:
        raise BadRequest("`decline` is a card's status, 0 to 9, and takes chip data that are whole, with a PAN")
    return found


def bytes_of(text: object, name: str) -> bytes:
    try:
        if isinstance(text, str) and text.isalnum():
            return bytes.fromhex(text)
    except ValueError:
        pass
    raise BadRequest(f"`{name}` has hexadecimal digits, two a byte")


def joined(tags: object) -> bytes:
    """The chip data of an object of tags, in its order."""
    if not isinstance(tags, dict):
        raise BadRequest("`tags` is an object: a tag's value in hexadecimal by the tag, as 9F02")
    found = b""
    for tag, text in tags.items():
        value = bytes_of(text, tag) if text != "" else b""
        size = len(value)
        length = bytes([size]) if size < 0x80 else b"\x81" + bytes([size]) if size < 0x100 else None
        found += bytes_of(tag, "tags") + (length or b"\x82" + size.to_bytes(2, "big")) + value
    return found


def response_of(exchange: Exchange, message: Message) -> web.Response:
    """The response in JSON: a decision, a refusal, or that nobody knows."""
    code = message.code
    found: dict[str, Any] = {"response_code": code}
    if exchange.verdict:
        found["account"] = exchange.verdict
    answer = exchange.answer
    decision = decision_of(answer) if answer is not None else None
    if decision is not None:
        found.update(decided(decision, message, answer or ""))
    elif answer is not None:
        kind = answers.kind_of(answer)
        found["result"], found["refusal"] = "refused", int(kind.refusal)
        found["detail"] = answer.partition(f" {kind.refusal}")[2].strip()
        found["reason"] = reason_of(kind.refusal)
    elif exchange.why:
        found["result"], found["reason"] = "declined", exchange.why
    else:
        found["result"], found["reason"] = "unknown", "no answer in time: send the same request again"
        return web.json_response(found, status=504)
    return web.json_response(found)


def decided(decision: Decision, message: Message, answer: str) -> dict[str, Any]:
    """What a decision has. A request that its account declined afterwards, or that was reversed, has no reply."""
    chip = message.elements.get(mapping.CHIP)
    found: dict[str, Any] = {
        "result": "approved" if decision.approves and isinstance(chip, bytes) else "declined",
        "repeat": answers.kind_of(answer).word == answers.KEPT,
        "record": {"shard": decision.shard, "index": decision.place},
        "issuer_code": decision.response_code.decode("latin-1"),
    }
    if mapping.APPROVAL in message.elements:
        found["approval_code"] = message.elements[mapping.APPROVAL]
    if isinstance(chip, bytes):
        objects = list(objects_of(chip))
        found["chip"] = chip.hex()
        authentication = next((it.value for it in objects if it.tag == AUTHENTICATION), b"")
        found["issuer_authentication_data"] = authentication.hex()
        found["arpc"] = authentication[: ARPC_BYTES.get(len(authentication), 0)].hex()
        found["scripts"] = [it.value.hex() for it in objects if it.tag in SCRIPTS]
    return found


def is_loopback(address: str) -> bool:
    try:
        return ipaddress.ip_address(address).is_loopback
    except ValueError:
        return address == "localhost"
