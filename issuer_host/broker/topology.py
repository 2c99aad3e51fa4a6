"""What there is at the broker: the exchanges, the queues and their limits.

Requests go by a direct exchange to the quorum queue of the card's partition. Answers go by a topic exchange of their
own, so that no message can aim an answer at a queue that isn't a reply queue.
"""
from typing import Any, Optional

import pika

from issuer_host.broker import broker_file
from issuer_host.broker.types import Channel, Step
from issuer_host.facts.limits import MAX_MESSAGE_BYTES

REQUESTS, REPLIES, DEAD = "issuer.requests", "issuer.replies", "issuer.dead"
# Of a topic exchange the broker checks by which names a user may bind: a publisher reads its own answers alone.
REPLIES_TYPE = "topic"
# By this exchange nodes write to the streams of partitions: no publisher may.
RECORDS = "issuer.records"
STREAM_ENDING = ".records"
REPLY_PREFIX = "issuer.reply."
# A publisher's user may declare so many reply queues, by their numbers, and no others.
REPLY_QUEUES = 64
QUEUE_LENGTH = 100_000
DEAD_LENGTH = 10_000
# Bytes of a message that a queue has room for: no request line is longer.
MESSAGE_BYTES = 4096
# A message that is delivered so often and never settled goes to the dead letters.
DELIVERY_LIMIT = 8
# A reply queue that nobody reads for an hour is removed.
REPLY_EXPIRES = 3_600_000
HEARTBEAT = 10
# A broker whose machine no longer takes what is sent, or answers no probe of the network, is gone after 5 s.
SILENCE = {"TCP_USER_TIMEOUT": 5_000, "TCP_KEEPIDLE": 2, "TCP_KEEPINTVL": 1, "TCP_KEEPCNT": 3}
# Bytes that the broker should take in a message (max_message_size of its configuration).
MAX_MESSAGE = MAX_MESSAGE_BYTES

PARTITION_ARGUMENTS = {
    "x-queue-type": "quorum",
    "x-single-active-consumer": True,
    "x-overflow": "reject-publish",
    "x-max-length": QUEUE_LENGTH,
    "x-max-length-bytes": QUEUE_LENGTH * MESSAGE_BYTES,
    "x-delivery-limit": DELIVERY_LIMIT,
    "x-dead-letter-exchange": DEAD,
}
DEAD_ARGUMENTS = {
    "x-queue-type": "quorum",
    "x-max-length": DEAD_LENGTH,
    "x-max-length-bytes": DEAD_LENGTH * MESSAGE_BYTES,
}
REPLY_ARGUMENTS = {
    "x-expires": REPLY_EXPIRES,
    "x-max-length": QUEUE_LENGTH,
    "x-max-length-bytes": QUEUE_LENGTH * MESSAGE_BYTES,
    "x-overflow": "reject-publish",
}


# Of a partition's stream: so many nodes of the broker have a copy, and what is oldest goes by whole segments.
COPIES = 3
SEGMENT_BYTES = 20_000_000
STREAM_BYTES = 2_000_000_000


def queue_of(partition: int) -> str:
    return f"{REQUESTS}.{partition}"


def stream_of(partition: int) -> str:
    return queue_of(partition) + STREAM_ENDING


def reply_queue(user: str, number: int) -> str:
    return f"{REPLY_PREFIX}{user}.{number}"


def parameters_of(path: Optional[str]) -> Any:
    """Returns the connection that a broker file names, or the broker of this machine if there is no file."""
    file = broker_file.read(path)
    found = pika.URLParameters(file.url)
    if file.tls:
        found.ssl_options = pika.SSLOptions(file.tls, file.host)
    found.heartbeat = HEARTBEAT
    found.blocked_connection_timeout = 2 * HEARTBEAT
    found.socket_timeout = 2
    found.stack_timeout = 3
    found.connection_attempts = 1
    found.tcp_options = SILENCE
    return found


def declare_exchanges(channel: Channel) -> list[Step]:
    """Steps that declare the exchanges, and the queue of what the bridge refuses."""
    return [
        lambda then: channel.exchange_declare(REQUESTS, "direct", durable=True, callback=then),
        lambda then: channel.exchange_declare(REPLIES, REPLIES_TYPE, durable=True, callback=then),
        lambda then: channel.exchange_declare(DEAD, "fanout", durable=True, callback=then),
        lambda then: channel.queue_declare(DEAD, durable=True, arguments=DEAD_ARGUMENTS, callback=then),
        lambda then: channel.queue_bind(DEAD, DEAD, callback=then),
    ]


def declare_partition(channel: Channel, partition: int) -> list[Step]:
    """Steps that declare a partition's queue: one consumer is active, and a full queue refuses its publishers."""
    queue = queue_of(partition)
    return [
        lambda then: channel.queue_declare(queue, durable=True, arguments=PARTITION_ARGUMENTS, callback=then),
        lambda then: channel.queue_bind(queue, REQUESTS, str(partition), callback=then),
    ]


def stream_arguments(stream_bytes: int = STREAM_BYTES) -> "dict[str, object]":
    return {
        "x-queue-type": "stream",
        "x-initial-cluster-size": COPIES,
        "x-queue-leader-locator": "least-leaders",
        "x-stream-max-segment-size-bytes": SEGMENT_BYTES,
        "x-max-length-bytes": stream_bytes,
    }


def declare_stream(channel: Channel, partition: int, stream_bytes: int = STREAM_BYTES) -> list[Step]:
    """Steps that declare a partition's stream, and have its queue get what wakes a node."""
    stream, queue = stream_of(partition), queue_of(partition)
    arguments = stream_arguments(stream_bytes)
    return [
        lambda then: channel.exchange_declare(RECORDS, "direct", durable=True, callback=then),
        lambda then: channel.queue_declare(stream, durable=True, arguments=arguments, callback=then),
        lambda then: channel.queue_bind(stream, RECORDS, stream, callback=then),
        lambda then: channel.queue_bind(queue, RECORDS, queue, callback=then),
    ]


def find_partition(channel: Channel, partition: int) -> list[Step]:
    """A step that makes sure that a partition's queue was declared.

    Only deploy/queues declares it, so that bridges need no right to.
    """
    return [lambda then: channel.queue_declare(queue_of(partition), passive=True, callback=then)]
