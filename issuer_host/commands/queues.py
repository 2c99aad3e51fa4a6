"""Declares the exchanges and the quorum queues of all partitions at the broker, or says what the broker lacks.

usage: queues --partitions P [--streams] [--stream-bytes N] [--streams-anew] [--replies-anew] [--broker-file FILE]
       queues --await-whole SECONDS --partitions P [--vhost NAME] [--control COMMAND]
       queues --check --partitions P [--streams] [--broker-file FILE] [--operator USER] [--bridge USER] [--vhost NAME]
              [--control COMMAND]

Run it once, before the first bridge, and again for more partitions; never two at a time. What exists as it should be
stays. A queue that exists with other arguments is refused with status 1: delete it while it is empty, and declare it
again.

--streams       declares the streams of all partitions too, for nodes on several machines (deploy/node)
--stream-bytes  what a stream keeps (2,000,000,000): a machine that was away while more was written begins from copies

--streams-anew  deletes all streams with what they hold, and declares them: once, after `node --anew` on all machines.
                It refuses while a node reads one

--replies-anew  deletes the exchange of answers before, which an earlier version declared with another type. Publishers
                bind their queues again when they connect: end them, and the bridges, before

--await-whole   waits until all copies of queues and streams answer and three machines stand in each queue's line, as
                between two restarts of brokers; with what is missing after so long, and status 1

--check         changes nothing, and asks the broker of this machine by rabbitmqctl, as root. It prints a line for each
            thing that is missing, with the command that mends it: users and what they may do, their limits, policies,
            queues and bindings, sizes, listeners and TLS; with --streams each copy that no node has. The status is 1 if
            something is
--operator      the user of whoever runs this command (issuer-operator)
--bridge        the user of the bridges or nodes (issuer-bridge); all others are publishers
--vhost         the virtual host (/)
--control       another command than rabbitmqctl
"""
import argparse
import os
import time
from collections.abc import Callable, Sequence
from typing import Any, NamedTuple, Optional, cast

import pika

from issuer_host.broker import topology
from issuer_host.broker.connection import NOT_FOUND
from issuer_host.broker.redundancy import of_lines, redundancy_of, what_is_lost
from issuer_host.broker.rules import ANEW, Expected, of_broker_file, what_is_missing
from issuer_host.broker.settings import COMMAND, Control, facts_of
from issuer_host.broker.types import Channel
from issuer_host.facts.refusal import Refusal, tell

SAVED_SECONDS = 2


class QueuesOptions(NamedTuple):
    """The words of the command."""

    partitions: int
    streams: bool
    stream_bytes: int
    streams_anew: bool
    replies_anew: bool
    broker_file: Optional[str]
    check: bool
    await_whole: float
    operator: str
    bridge: str
    vhost: str
    control: str


class Once:
    """A blocking channel with the calls that the steps make."""

    def __init__(self, channel: Any) -> None:
        self.channel = channel

    def __getattr__(self, name: str) -> Callable[..., None]:
        def call(*words: Any, callback: Callable[[None], object], **more: Any) -> None:
            if name == "exchange_declare":
                more = {"exchange_type": words[1]} | more
                words = words[:1]
            getattr(self.channel, name)(*words, **more)
            callback(None)

        return call


def options_of(words: Sequence[str]) -> QueuesOptions:
    parser = argparse.ArgumentParser(usage=__doc__)
    parser.add_argument("--partitions", type=int, required=True)
    parser.add_argument("--streams", action="store_true")
    parser.add_argument("--stream-bytes", type=int, default=topology.STREAM_BYTES)
    parser.add_argument("--streams-anew", action="store_true")
    parser.add_argument("--replies-anew", action="store_true")
    parser.add_argument("--broker-file")
    parser.add_argument("--check", action="store_true")
    parser.add_argument("--await-whole", type=float, default=0.0)
    parser.add_argument("--operator", default="issuer-operator")
    parser.add_argument("--bridge", default="issuer-bridge")
    parser.add_argument("--vhost", default="/")
    parser.add_argument("--control", default=COMMAND)
    options = QueuesOptions(**vars(parser.parse_args(words)))
    return options._replace(streams=options.streams or options.streams_anew)


def declare(options: QueuesOptions) -> None:
    connection = pika.BlockingConnection(topology.parameters_of(options.broker_file))
    blocking = connection.channel()
    if options.replies_anew:
        blocking.exchange_delete(topology.REPLIES)
    if options.streams_anew:
        delete_streams(connection, options.partitions)
    channel = cast(Channel, Once(blocking))
    steps = topology.declare_exchanges(channel)
    for partition in range(options.partitions):
        steps += topology.declare_partition(channel, partition)
        if options.streams:
            steps += topology.declare_stream(channel, partition, options.stream_bytes)
    try:
        for step in steps:
            step(lambda _: None)
    except pika.exceptions.ChannelClosedByBroker as fault:
        if "'type' for exchange" in str(fault):
            raise Refusal(f"the exchange {topology.REPLIES} is of another type: {ANEW}") from fault
        raise
    # (the broker writes its list of quorum queues twice a second: killed before, it would bring a queue back without a
    # leader)
    connection.sleep(SAVED_SECONDS)
    connection.close()


def delete_streams(connection: Any, partitions: int) -> None:
    """Deletes the streams of all partitions. Refuses while nodes read one: they would lose what counts."""
    streams = [topology.stream_of(partition) for partition in range(partitions)]
    for stream in streams:
        readers = readers_of(connection.channel(), stream)
        if readers:
            raise Refusal(f"{readers} nodes read {stream}: end the nodes of all machines, and run node --anew on each")
    for stream in streams:
        connection.channel().queue_delete(stream)


def readers_of(channel: Any, stream: str) -> int:
    """Returns how many read a stream; none of one that isn't there."""
    try:
        return int(channel.queue_declare(stream, passive=True).method.consumer_count)
    except pika.exceptions.ChannelClosedByBroker as fault:
        if fault.reply_code != NOT_FOUND:
            raise
        return 0


def check(options: QueuesOptions) -> list[str]:
    """Returns what the broker lacks."""
    expected = Expected(options.partitions, options.operator, options.bridge, options.vhost, options.streams)
    control = Control(options.control, options.vhost)
    found = what_is_missing(facts_of(control), expected)
    if options.streams:
        found += what_is_lost(redundancy_of(control))
    if options.broker_file:
        with open(options.broker_file, encoding="utf-8") as file:
            found += of_broker_file(file.read(), os.fstat(file.fileno()).st_mode)
    return found


def run_check(options: QueuesOptions) -> int:
    found = check(options)
    for line in found:
        print(f"missing: {line}")
    if not found:
        print("nothing is missing")
    return 1 if found else 0


def run_await(options: QueuesOptions) -> int:
    """Waits until nothing is missing of what has copies."""
    control = Control(options.control, options.vhost)
    end = time.monotonic() + options.await_whole
    while lost := whatever_is_lost(control, options.partitions):
        if time.monotonic() > end:
            for line in lost:
                print(f"missing: {line}")
            return 1
        time.sleep(SAVED_SECONDS)
    print("three of three: all copies answer, and three machines stand in each queue's line")
    return 0


def whatever_is_lost(control: Control, partitions: int) -> list[str]:
    """Returns what is missing; of a broker that doesn't answer, that."""
    try:
        seen = redundancy_of(control)
    except Refusal as refusal:
        return [str(refusal)]
    return [*what_is_lost(seen), *of_lines(seen, partitions)]


def run(options: QueuesOptions) -> int:
    if options.await_whole:
        return run_await(options)
    if options.check:
        return run_check(options)
    declare(options)
    print(f"{options.partitions} partitions' queues{' and streams' * options.streams} are declared")
    return 0


def main(words: Sequence[str]) -> int:
    options = options_of(words)
    try:
        return run(options)
    except Refusal as refusal:
        tell("queues", str(refusal))
    except (OSError, pika.exceptions.AMQPError) as fault:
        tell("queues", repr(fault))
    return 1
