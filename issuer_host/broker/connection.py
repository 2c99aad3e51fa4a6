"""One connection to the broker with one channel, which is opened again when it is lost."""
import time
from collections.abc import Callable
from enum import Enum
from typing import Any, Optional

import pika

from issuer_host.broker.addresses import services_of
from issuer_host.broker.refusing_leaders import RefusingLeaders
from issuer_host.broker.types import Callback, Channel, Step
from issuer_host.broker.wire import decode_no_headers, keep_short_bodies, leave_debugging_out, send_joined
from issuer_host.host.event_loop import Action, Loop

RECONNECT_SECONDS = 0.3
# A connection that isn't ready in this time is left, and tried again.
SETUP_SECONDS = 10.0
NOT_FOUND = 404
# Bytes of a reason that the broker gives.
REASON = 160


class Confirm(Enum):
    """What the broker did with a message."""

    ACKED = "acked"
    NACKED = "nacked"
    # No queue is bound to its routing key.
    RETURNED = "returned"


OnConfirm = Callable[[Confirm], object]


class WholeConnection(pika.SelectConnection):  # type: ignore[misc]
    """A connection that sends a message's frames in one piece: three would be three packets."""

    def _output_marshaled_frames(self, marshaled_frames: list[bytes]) -> None:
        # (`pika` has no other place for it)
        super()._output_marshaled_frames([b"".join(marshaled_frames)])


class Link:
    """A connection. Each opening takes the steps of `steps_of` and calls `on_ready`; each loss calls `on_lost`."""

    def __init__(
        self,
        loop: Loop,
        parameters: Any,
        steps_of: Callable[[Channel], list[Step]],
        on_ready: Callable[[Channel], object],
        on_lost: Callable[[Exception], object],
    ) -> None:
        self.loop = loop
        self.parameters = parameters
        self.steps_of = steps_of
        self.on_ready = on_ready
        self.on_lost = on_lost
        self.connection: Any = None
        # None until the connection is ready.
        self.made: Optional[Channel] = None
        self.on_closed: Optional[Action] = None
        self.setup: Optional[object] = None
        # The number of the last message, and what is called with the confirm of each: numbers are in order.
        self.number = 0
        self.unconfirmed: dict[int, tuple[str, str, OnConfirm]] = {}
        self.leaders = RefusingLeaders()
        self.returned: set[str] = set()
        decode_no_headers()
        leave_debugging_out()
        send_joined()

    @property
    def channel(self) -> Optional[Channel]:
        """The channel of a connection that is ready; None as soon as it begins to close."""
        return self.made if self.made is not None and self.made.is_open else None

    def open(self) -> None:
        self.connection = WholeConnection(
            self.parameters,
            custom_ioloop=services_of(self.loop),
            on_open_callback=self.opened,
            on_open_error_callback=self.lost,
            on_close_callback=self.lost,
        )

    def opened(self, connection: Any) -> None:
        def give_up() -> None:
            if connection.is_open:
                connection.close(200, "the broker doesn't get ready")

        self.setup = self.loop.call_later(SETUP_SECONDS, give_up)
        connection.channel(on_open_callback=self.channel_opened)

    def channel_opened(self, channel: Channel) -> None:
        keep_short_bodies(channel)
        channel.add_on_close_callback(self.channel_closed)
        channel.add_on_cancel_callback(lambda _: self.begin_anew("the broker cancelled the consumer"))
        channel.add_on_return_callback(lambda _, __, properties, ___: self.returned.add(properties.correlation_id))
        steps: list[Step] = [lambda then: channel.confirm_delivery(self.confirmed, callback=then)]
        self.take_steps(channel, steps + self.steps_of(channel))

    def take_steps(self, channel: Channel, steps: list[Step]) -> None:
        if steps:
            then: Callback = lambda _: self.take_steps(channel, steps[1:])
            steps[0](then)
            return
        self.end_setup()
        self.made = channel
        self.number = 0
        self.leaders.begins()
        self.on_ready(channel)

    def end_setup(self) -> None:
        if self.setup is not None:
            self.loop.remove_timeout(self.setup)
            self.setup = None

    def channel_closed(self, _: Channel, reason: Exception) -> None:
        """The broker closes a channel for a queue that doesn't exist, say: then the connection begins anew."""
        said = str(reason)[:REASON]
        if getattr(reason, "reply_code", 0) == NOT_FOUND:
            said += "; deploy/queues declares what is missing"
        self.begin_anew(said)

    def begin_anew(self, reason: str) -> None:
        """Closes the connection, so that it is lost and opened again."""
        if self.connection.is_open:
            self.connection.close(200, reason)

    def lost(self, _: object, reason: Exception) -> None:
        self.made = None
        self.end_setup()
        self.unconfirmed.clear()
        self.returned.clear()
        if self.on_closed:
            self.on_closed()
            return
        self.on_lost(reason)
        if not self.on_closed:
            self.loop.call_later(RECONNECT_SECONDS, self.open)

    def close(self, then: Action) -> None:
        """Closes for good, and calls `then`."""
        self.on_closed = then
        if self.connection.is_open:
            self.connection.close()
        elif not self.connection.is_closing:
            then()

    def publish(
        self, exchange: str, key: str, body: bytes, correlation: str, then: OnConfirm, reply_to: Optional[str] = None
    ) -> None:
        """Publishes a message, and calls `then` with what the broker did; never if the connection is lost before."""
        channel = self.channel
        if channel is None:
            return
        properties = pika.BasicProperties(
            delivery_mode=2, correlation_id=correlation, reply_to=reply_to, content_type="text/plain"
        )
        self.number += 1
        self.unconfirmed[self.number] = correlation, key, then
        channel.basic_publish(exchange, key, body, properties, mandatory=True)

    def wake(self, exchange: str, key: str, body: bytes) -> None:
        """Publishes a message that has no answer, and that nobody misses."""
        channel = self.channel
        if channel is not None:
            self.number += 1
            channel.basic_publish(exchange, key, body, pika.BasicProperties(delivery_mode=2))

    def confirmed(self, frame: Any) -> None:
        method = frame.method
        is_acked = method.NAME == "Basic.Ack"
        for number in self.numbers_of(method.delivery_tag, method.multiple):
            if number not in self.unconfirmed:
                continue
            correlation, key, then = self.unconfirmed.pop(number)
            if correlation in self.returned:
                self.returned.discard(correlation)
                then(Confirm.RETURNED)
            else:
                self.look_at_leader(key, is_acked)
                then(Confirm.ACKED if is_acked else Confirm.NACKED)

    def look_at_leader(self, key: str, is_acked: bool) -> None:
        """Begins anew where a queue refuses each message for a while: the channel may ask a leader that is gone."""
        if is_acked:
            self.leaders.took(key)
        elif self.leaders.refused(key, time.monotonic()):
            self.begin_anew(f"the queue of {key[:REASON]} takes nothing by this channel")

    def numbers_of(self, last: int, is_multiple: bool) -> list[int]:
        """Returns the numbers of the messages that a confirm is for."""
        if not is_multiple:
            return [last]
        found = []
        for number in self.unconfirmed:
            if number > last:
                break
            found.append(number)
        return found
