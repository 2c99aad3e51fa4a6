"""A channel of a connection to the broker, and what it delivers, as `pika` gives them."""
from collections.abc import Callable, Mapping
from typing import Any, Optional, Protocol


class Properties(Protocol):
    """A message's properties that are used."""

    correlation_id: str
    reply_to: Optional[str]

    @property
    def stream_offset(self) -> Optional[int]:
        """Where in a stream the message is; None if it is of no stream."""

    @property
    def has_headers(self) -> bool:
        """Whether the message was written with headers."""


class Delivery(Protocol):
    """How a message was delivered."""

    delivery_tag: int


Callback = Callable[[object], object]
OnMessage = Callable[["Channel", Delivery, Properties, bytes], None]


class Channel(Protocol):
    """The calls on a channel that are used. A `callback` is called when the broker has done what was asked."""

    @property
    def is_open(self) -> bool:
        """Whether it takes calls: one that begins to close takes none."""

    def basic_qos(self, prefetch_size: int = 0, prefetch_count: int = 0) -> None:
        ...

    def basic_consume(
        self,
        queue: str,
        on_message_callback: OnMessage,
        auto_ack: bool = False,
        exclusive: bool = False,
        arguments: Optional[Mapping[str, object]] = None,
        callback: Optional[Callback] = None,
    ) -> str:
        ...

    def basic_cancel(self, consumer_tag: str) -> None:
        ...

    def basic_ack(self, delivery_tag: int, multiple: bool = False) -> None:
        ...

    def basic_reject(self, delivery_tag: int, requeue: bool = True) -> None:
        ...

    def basic_publish(
        self, exchange: str, routing_key: str, body: bytes, properties: object, mandatory: bool = False
    ) -> None:
        ...

    def close(self) -> None:
        ...

    def confirm_delivery(self, ack_nack_callback: Callable[[Any], None], callback: Callback) -> None:
        ...

    def exchange_declare(self, exchange: str, exchange_type: str, durable: bool, callback: Callback) -> None:
        ...

    def queue_declare(
        self,
        queue: str,
        passive: bool = False,
        durable: bool = False,
        arguments: Optional[Mapping[str, object]] = None,
        callback: Optional[Callback] = None,
    ) -> None:
        ...

    def queue_bind(self, queue: str, exchange: str, routing_key: Optional[str] = None, *, callback: Callback) -> None:
        ...

    def add_on_close_callback(self, callback: Callable[["Channel", Exception], None]) -> None:
        ...

    def add_on_cancel_callback(self, callback: Callable[[object], object]) -> None:
        ...

    def add_on_return_callback(self, callback: Callable[["Channel", object, Properties, bytes], object]) -> None:
        ...


# A step that is taken at a channel: it is given what to call when it is done.
Step = Callable[[Callback], None]
