"""Publishers that do others harm: messages that no decoder likes, and reply queues that take nothing."""
from trials.bridges.private_broker import PrivateBroker
from trials.bridges.publisher import Publisher, late_timestamp, nested_tables

NESTED = 900
MEGABYTE = 1 << 20
DEAF_LINES = 100
# No bridge takes these for a request line.
ORDERS = (b"S 4000000000000002 00 7", b"Q 4000000000000002 00 84")
BODIES = (b"", b"x" * MEGABYTE, bytes(range(256)), b"A 00\nA 00", *ORDERS)
# Its reply queue refuses every answer.
DEAF = {"x-max-length": 0, "x-overflow": "reject-publish"}


def publish_hostile(private: PrivateBroker, partitions: int) -> None:
    """Publishes to each partition what no publisher should."""
    with Publisher(private) as publisher:
        publisher.declare_replies()
        for partition in range(partitions):
            for headers in (late_timestamp(), nested_tables(NESTED)):
                publisher.publish(partition, b"A 00", headers=headers)
            for body in BODIES:
                publisher.publish(partition, body)
            publisher.publish(partition, b"A 00", correlation="c" * 255)


def publish_deaf(private: PrivateBroker, partition: int) -> None:
    """Asks a partition and reads no answer."""
    with Publisher(private) as publisher:
        publisher.declare_replies(**DEAF)
        for _ in range(DEAF_LINES):
            publisher.publish(partition, b"A 00")
