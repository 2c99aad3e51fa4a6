"""A peer's connection: frames in, responses out. It holds a buffer of two frames, and the messages in flight."""

import asyncio
from typing import TYPE_CHECKING, Optional, Protocol, cast

from issuer_host.gateway import responses
from issuer_host.gateway.figures import GatewayFigures
from issuer_host.gateway.frames import BadFrame, FrameBuffer, KEEP_ALIVES_A_SECOND, KeepAlives, framer_of
from issuer_host.gateway.message_handler import MessageHandler
from issuer_host.gateway.log import Limited
from issuer_host.gateway.message import Codec, Message, Unreadable, Unwritable
from issuer_host.gateway.pending_logs import PendingLogs
from issuer_host.gateway.talk import Talk

if TYPE_CHECKING:
    from issuer_host.gateway.dialler import DialledLink

# Answers that a peer doesn't read are buffered up to so many bytes; then nothing more is read from it.
WRITE_BYTES = 1 << 16


class ConnectionLimits(Protocol):
    """What bounds a connection."""

    frame: int
    of_connection: int
    frame_seconds: float
    idle_seconds: float


class ConnectionOwner(Protocol):
    """The gateway, as a connection sees it."""

    figures: GatewayFigures
    is_stopping: bool
    limited: Limited
    handler: MessageHandler
    logs: PendingLogs

    @property
    def limits(self) -> ConnectionLimits:
        """What bounds its connections."""

    def begun(self, connection: "Connection") -> str:
        """Takes a connection; or says why not."""

    def ended(self, connection: "Connection", why: str) -> None:
        """Forgets a connection."""

    def has_room(self, connection: "Connection") -> bool:
        """Whether one more message may be in flight. If not, the connection is told when it may."""


class Connection(asyncio.BufferedProtocol):
    """A connection in a dialect."""

    def __init__(
        self,
        owner: ConnectionOwner,
        codec: Codec,
        loop: asyncio.AbstractEventLoop,
        link: "Optional[DialledLink]" = None,
    ) -> None:
        """`link` is the one that was dialled, if a peer didn't open the connection."""
        self.owner, self.codec, self.dialect, self.loop, self.link = owner, codec, codec.dialect, loop, link
        self.buffer, self.keep_alives = FrameBuffer(self.dialect, owner.limits.frame), KeepAlives()
        self.frame_of = framer_of(self.dialect.frame)
        self.talk = Talk(self, self.dialect, link is not None)
        self.transport: Optional[asyncio.Transport] = None
        self.in_flight = 0
        # Where the peer is.
        self.address = ""
        self.unsent: list[bytes] = []
        # Whether the peer reads, the socket is read, more frames are taken.
        self.is_stuck = self.is_paused = self.is_closing = False
        self.why = "by the peer"
        # When the last byte came, since when the peer doesn't read, and since when a frame isn't whole.
        self.heard = self.stuck_since = loop.time()
        self.torn_since: Optional[float] = None

    # The transport's calls

    def connection_made(self, transport: asyncio.BaseTransport) -> None:
        self.transport = cast(asyncio.Transport, transport)
        self.transport.set_write_buffer_limits(high=WRITE_BYTES)
        self.address = address_of(self.transport.get_extra_info("peername"))
        why_not = self.owner.begun(self)
        if why_not:
            self.abort(why_not)
        else:
            self.talk.opened()

    def get_buffer(self, sizehint: int) -> memoryview:
        return self.buffer.room()

    def buffer_updated(self, nbytes: int) -> None:
        self.buffer.filled(nbytes)
        self.heard = self.loop.time()
        self.take()

    def eof_received(self) -> bool:
        """The peer sends no more. It still gets the answers to what it sent."""
        self.close_after_answers("by the peer" if self.buffer.is_empty else "a torn frame")
        # (TLS has no half of a connection)
        return self.transport is not None and self.transport.get_extra_info("sslcontext") is None

    def pause_writing(self) -> None:
        self.is_stuck, self.stuck_since = True, self.loop.time()
        self.set_paused(True)

    def resume_writing(self) -> None:
        self.is_stuck = False
        self.take()

    def connection_lost(self, exc: Optional[Exception]) -> None:
        self.transport, self.is_closing = None, True
        self.owner.ended(self, self.why)

    # Messages in

    def take(self) -> None:
        """Takes frames while there is room for them in flight, and reads on if all were taken."""
        while not self.is_stuck and not self.is_closing:
            if self.in_flight >= self.owner.limits.of_connection or not self.owner.has_room(self):
                self.set_paused(True)
                return
            try:
                data = self.buffer.next()
            except BadFrame as fault:
                self.close_after_answers("a bad frame", str(fault))
                return
            if self.buffer.keep_alives and self.keep_alives.are_too_many(self.buffer.keep_alives, self.heard):
                self.close_after_answers("keep-alives", f"more than {KEEP_ALIVES_A_SECOND} keep-alives in a second")
                return
            if data is None:
                self.wait_for_more()
                return
            self.torn_since = None
            self.handle(data)

    def wait_for_more(self) -> None:
        if self.owner.is_stopping and not self.talk.is_leaving():
            self.close_after_answers("the gateway ends")
            return
        self.torn_since = None if self.buffer.is_empty else self.torn_since or self.heard
        self.set_paused(False)

    def set_paused(self, is_paused: bool) -> None:
        if self.transport is None or self.transport.is_closing() or self.is_paused == is_paused:
            return
        self.is_paused = is_paused
        if is_paused:
            self.transport.pause_reading()
        else:
            self.transport.resume_reading()

    def handle(self, data: bytes) -> None:
        # (all that the buffer has came with the last bytes or before: a connection that is paused reads none)
        try:
            message = self.codec.unpack(data)
        except Unreadable as fault:
            self.owner.handler.unreadable(self, fault, self.heard)
            if fault.so_far is None and not fault.is_of_other_edition:
                self.close_after_answers("no message")
            return
        if self.talk.take(message):
            return
        refusal = self.talk.refusal_of(message)
        if refusal:
            self.owner.handler.refuse(self, message, self.heard, refusal, "its link is signed off")
        else:
            self.owner.handler.take(self, message, self.heard)

    def hold(self) -> None:
        """One more message is in flight."""
        self.in_flight += 1

    def let_go(self) -> None:
        """A message in flight was answered: others may be taken."""
        self.in_flight -= 1
        if self.is_closing:
            self.close_if_answered()
        elif self.is_paused:
            self.loop.call_soon(self.take)

    # Responses out

    def respond(self, message: Message, began: float) -> str:
        """Sends a response, and returns its code in element 39: another one, if the dialect can't express it."""
        try:
            data = self.codec.pack(message)
        except Unwritable as fault:
            self.owner.limited.tell(f"a response can't be written, and is a malfunction: {fault}")
            message = responses.malfunction(self.dialect, message)
            data = self.codec.pack(message)
        code = message.code
        self.owner.figures.responded(code, self.loop.time() - began)
        if self.transport is not None:
            is_first = not self.unsent
            self.unsent.append(self.frame_of(data))
            if is_first and self.in_flight == 1:
                # (a peer that waits for nothing else gets its response at once)
                self.send()
            elif is_first:
                self.loop.call_soon(self.send)
        return code

    def send(self) -> None:
        """Writes all responses of a moment at once."""
        if self.transport is not None and self.unsent:
            self.owner.logs.write()
            self.transport.write(b"".join(self.unsent))
        self.unsent.clear()
        self.close_if_answered()

    # The end

    def close_after_answers(self, why: str, said: str = "") -> None:
        """Reads no more, answers what is in flight, and closes."""
        if said:
            self.owner.limited.tell(f"a connection is closed: {said}")
        if not self.is_closing:
            self.is_closing, self.why = True, why
        self.set_paused(True)
        self.close_if_answered()

    def close_if_answered(self) -> None:
        if self.is_closing and not self.in_flight and not self.unsent and self.transport is not None:
            self.transport.close()

    def abort(self, why: str) -> None:
        self.is_closing, self.why = True, why
        if self.transport is not None:
            self.transport.abort()

    def look(self, now: float) -> None:
        """Ends a connection whose peer doesn't read, leaves a frame torn, or is idle. It is called every second."""
        limits = self.owner.limits
        self.talk.look(now)
        if self.is_stuck:
            if now - self.stuck_since > limits.frame_seconds:
                self.abort("the peer doesn't read")
        elif self.is_closing and now - self.heard > 2 * limits.frame_seconds and not self.in_flight:
            self.abort(self.why)
        elif self.is_paused or self.in_flight or self.is_closing:
            pass
        elif self.torn_since is not None and now - self.torn_since > limits.frame_seconds:
            self.close_after_answers("a torn frame")
        elif limits.idle_seconds and now - self.heard > limits.idle_seconds:
            self.close_after_answers("idle")


def address_of(name: object) -> str:
    """How the log names a peer, by what the system calls it: an address and a port, or a path."""
    if isinstance(name, tuple) and len(name) >= 2:
        return f"{name[0]}:{name[1]}"
    return str(name) if isinstance(name, str) and name else "a peer"
