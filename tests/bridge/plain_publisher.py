#!/usr/bin/env python3
"""Asks a host behind a broker by pika alone: a client that was written from docs/formats/streams.md.

usage: tests/bridge/plain_publisher.py URL PARTITIONS [KEY] < LINES     (URL with USER:PASSWORD; KEY in hexadecimal)

It publishes each line with its newline, and prints the answers in the order of the lines.
"""
import collections
import hashlib
import hmac
import struct
import sys
import urllib.parse
import uuid

import pika

NUMBERS = 64
DECLARED = {
    "x-expires": 3_600_000,
    "x-max-length": 100_000,
    "x-max-length-bytes": 409_600_000,
    "x-overflow": "reject-publish",
}
SECONDS = 60.0


def pan_of(line: str) -> str:
    """The digits of the first object 5A of a line of the form A, which this client's lines begin with."""
    data = bytes.fromhex(line.split(" ")[1])
    assert data[0] == 0x5A
    return data[2 : 2 + data[1]].hex().rstrip("f")


def partition_of(line: str, partitions: int) -> str:
    digest = hashlib.sha256(pan_of(line).encode("ascii")).digest()
    return str(int.from_bytes(digest[:8], "big") % partitions)


def answer_of(body: bytes, correlation: str, request: str, key: bytes) -> str:
    """The answer line, or nothing if its MAC isn't the bridge's."""
    if not key:
        return body.partition(b"\n")[0].decode("ascii")
    answer, _, last = body.rpartition(b"\n")
    parts = correlation.encode("ascii"), request.encode("ascii"), answer
    text = b"".join(struct.pack(">Q", len(part)) + part for part in parts)
    expected = b"mac " + hmac.new(key, text, hashlib.sha256).hexdigest().encode("ascii")
    return answer.decode("ascii") if hmac.compare_digest(last, expected) else ""


class Client:
    """A connection, and a reply queue that nobody else reads."""

    def __init__(self, url: str) -> None:
        self.connection = pika.BlockingConnection(pika.URLParameters(url))
        self.user = urllib.parse.unquote(urllib.parse.urlsplit(url).username or "guest")
        self.came: "collections.deque[tuple[str, bytes]]" = collections.deque()
        for number in range(NUMBERS):
            self.channel = self.connection.channel()
            self.queue = f"issuer.reply.{self.user}.{number}"
            self.channel.queue_declare(self.queue, durable=True, arguments=DECLARED)
            try:
                self.channel.basic_consume(self.queue, self.take, auto_ack=True, exclusive=True)
            except pika.exceptions.ChannelClosedByBroker:
                continue
            break
        self.channel.queue_bind(self.queue, "issuer.replies", self.queue)
        self.channel.confirm_delivery()

    def take(self, channel: object, method: object, properties: pika.BasicProperties, body: bytes) -> None:
        self.came.append((properties.correlation_id, body))

    def ask(self, line: str, partition: str, key: bytes) -> str:
        correlation = uuid.uuid4().hex
        properties = pika.BasicProperties(reply_to=self.queue, correlation_id=correlation, delivery_mode=2)
        body = f"{line}\n".encode("ascii")
        self.channel.basic_publish("issuer.requests", partition, body, properties, mandatory=True)
        for _ in range(int(SECONDS)):
            self.connection.process_data_events(1.0)
            while self.came:
                name, answer = self.came.popleft()
                if name == correlation:
                    return answer_of(answer, correlation, line, key)
        return ""


def main() -> None:
    url, partitions, *key = sys.argv[1:]
    client = Client(url)
    for line in sys.stdin.read().splitlines():
        answer = client.ask(line, partition_of(line, int(partitions)), bytes.fromhex(key[0]) if key else b"")
        print(answer or "no answer", flush=True)
    client.connection.close()


if __name__ == "__main__":
    main()
