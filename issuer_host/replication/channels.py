"""The channels of a connection to the broker, which may be closed by the broker at any moment."""
import contextlib
from typing import Any

import pika

from issuer_host.broker.types import Channel


def is_usable(connection: Any) -> bool:
    """Whether channels can be opened and used."""
    return connection is not None and bool(connection.is_open)


def close(channel: Channel) -> None:
    """Closes a channel, unless the broker did."""
    with contextlib.suppress(pika.exceptions.AMQPError):
        channel.close()
