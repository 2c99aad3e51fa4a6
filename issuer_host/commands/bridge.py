"""Takes requests from a partition's queue, puts them to the partition's host, and sends the answers back.

usage: bridge --partition N --config FILE --journal NAME [--callers N] [--window N] [--broker-file FILE]
              [--orders SOCKET] [--second] [--figures PORT] [--last-run FILE] [--program PATH]

Run two for each partition: the broker delivers to one of them, and to the other as soon as the first is gone. The host
is started by issuer-run. It ends if the connection is lost or this process ends, so that its lock on the journals goes
to whoever is active next. The service manager is told that the bridge is ready when the host has answered a first line,
or when another bridge serves the partition. That host ends again unless the broker delivers to this bridge.

A request is acknowledged when the broker has confirmed its answer. If host, bridge or broker ends before, it is put
again, and its answer is `kept`. Answers `refused 12` and `refused 15` record nothing: their lines are held for a moment
and put again, and after two seconds their publishers get these answers. An answer that its reply queue refuses is
dropped: it is recorded. A message that is neither a line of the form A nor an account's decline (three lines, `S`, `A`
and `S` of one card), that has no reply queue, or whose deliveries end this process again and again goes to the dead
letters.

--window       unacknowledged requests at a time (64)
--broker-file  a file with the broker's URL; the broker of this machine if it is left out
--orders       the path of a socket at which it takes orders (deploy/order --socket); none if it is left out
--last-run     a file outside the journals' folder, of both bridges, that says which journals the partition's last run
               had: others are refused, by the other bridge too; none if it is left out
--second       another bridge is the partition's first one: this one starts no host before a request or an order comes
--figures      the port of Prometheus' figures on the loopback, to which the partition is added; none if it is 0 (0)

It ends with 0 at SIGTERM, and with the host's status if a new start would end in the same way: 2, 6, 70 and 78. With
64 its words, or those that it gives the host, are no command. With 75 something failed that passes: start it again.
"""
import signal
import time
from collections.abc import Sequence
from typing import Any, NamedTuple, Optional

from issuer_host.broker import topology
from issuer_host.broker.connection import Link
from issuer_host.broker.replies import NO_REPLY_QUEUE, NO_REQUEST, ReplySender
from issuer_host.broker.reply_mac import ReplyMacs
from issuer_host.broker.types import Callback, Channel, Delivery, Properties, Step
from issuer_host.broker.unacknowledged import entry_of
from issuer_host.facts.refusal import Refusal
from issuer_host.facts.service_words import ServiceWords
from issuer_host.facts.statuses import Status
from issuer_host.facts.troubles import Level, say
from issuer_host.files.open_journals import REPLACED
from issuer_host.host.command import StartOptions, serving_command
from issuer_host.host.event_loop import new_loop
from issuer_host.host.line_host import HostSettings
from issuer_host.orders.partition_host import PartitionHost
from issuer_host.telling.figures import Figures, kinds_at
from issuer_host.telling.service_manager import Readiness, notify

NAME = "bridge"
TICK_SECONDS = 1.0
STOP_SECONDS = 5.0


class BridgeOptions(NamedTuple):
    """The words of the command."""

    partition: int
    config: str
    journal: str
    callers: int
    window: int
    broker_file: Optional[str]
    orders: Optional[str]
    second: bool
    figures: int
    last_run: str
    program: Optional[str]


def options_of(words: Sequence[str]) -> BridgeOptions:
    parser = ServiceWords(NAME, __doc__)
    parser.add_argument("--partition", type=int, required=True)
    parser.add_argument("--config", required=True)
    parser.add_argument("--journal", required=True)
    parser.add_argument("--callers", type=int, default=1)
    parser.add_argument("--window", type=int, default=64)
    parser.add_argument("--broker-file")
    parser.add_argument("--orders")
    parser.add_argument("--second", action="store_true")
    parser.add_argument("--figures", type=int, default=0)
    parser.add_argument("--last-run", default="")
    parser.add_argument("--program")
    return BridgeOptions(**vars(parser.parse_args(words)))


class BrokerBridge:
    """Between the broker's queue and the partition's host."""

    def __init__(self, options: BridgeOptions) -> None:
        self.options = options
        self.status: int = Status.OK
        self.loop = new_loop()
        port = options.figures and options.figures + options.partition
        self.figures = Figures(options.partition, options.journal, kinds_at(port, NAME), NAME)
        parameters = topology.parameters_of(options.broker_file)
        self.link = Link(self.loop, parameters, self.steps_of, self.ready, self.lost)
        macs = ReplyMacs(options.broker_file)
        self.replying = ReplySender(self.loop, self.link, macs, self.figures, self.end_if_idle, NAME)
        self.flight = self.replying.flight
        start = StartOptions(options.program or "", last_run=options.last_run)
        command = serving_command(options.config, options.journal, options.callers, start)
        settings = HostSettings(command, options.journal, NAME, orders=options.orders or "", is_batched=True)
        self.serving = PartitionHost(self.loop, settings, self.figures, self.replying, self)
        self.readiness = Readiness(NAME)
        self.is_stopping = False
        # Whether another bridge is the first one, or consumed before this one.
        self.is_second = options.second
        self.consumer = ""
        self.told = ""

    def run(self) -> int:
        for number in (signal.SIGTERM, signal.SIGINT):
            signal.signal(number, lambda *_: self.loop.add_callback_threadsafe(self.stop))
        self.link.open()
        self.serving.orders.open()
        self.tick()
        self.loop.start()
        self.serving.end()
        return self.status

    # The broker's side

    def steps_of(self, channel: Channel) -> list[Step]:
        """A step that makes sure that the queue was declared, and asks whether it has a consumer."""

        def find(then: Callback) -> None:
            def found(frame: Any) -> None:
                self.is_second = self.options.second or frame.method.consumer_count > 0
                then(frame)

            channel.queue_declare(topology.queue_of(self.options.partition), passive=True, callback=found)

        return [find]

    def ready(self, channel: Channel) -> None:
        channel.basic_qos(prefetch_count=self.options.window)
        self.consumer = channel.basic_consume(topology.queue_of(self.options.partition), self.take)
        say(NAME, Level.NOTICE, "connected")
        if self.is_second:
            self.readiness.tell()
        elif not self.readiness.is_told:
            self.serving.hosting.want()

    def lost(self, reason: Exception) -> None:
        """All that isn't acknowledged is delivered again, here or elsewhere. The host ends, and answers nobody."""
        was_connected = bool(self.consumer)
        if was_connected:
            self.figures.losses.inc()
        if self.consumer or str(reason) != self.told:
            said = "the connection is lost" if self.consumer else "no connection"
            say(NAME, Level.WARNING, f"{said}: {reason!r}")
        self.consumer = ""
        self.told = str(reason)
        if was_connected:
            # (orders go on while the broker is tried again and again)
            self.flight.clear()
            self.serving.abandon()

    def take(self, _: Channel, delivery: Delivery, properties: Properties, body: bytes) -> None:
        entry = entry_of(delivery, properties, body)
        self.flight.add(entry)
        if not entry.reply_to:
            self.replying.refuse(entry, NO_REPLY_QUEUE)
        elif not self.serving.take(entry):
            self.replying.refuse(entry, NO_REQUEST)

    # What the host calls

    def host_is_ready(self) -> None:
        self.readiness.tell()

    def host_is_idle(self) -> None:
        self.end_if_idle()

    def host_ended(self) -> None:
        """The next one gets what wasn't answered."""

    def why_no_order(self) -> str:
        return ""

    # Time, and the end

    def tick(self) -> None:
        now = time.monotonic()
        state = "the host runs" if self.serving.hosting.is_running else "standby"
        self.readiness.look(f"{len(self.flight)} in flight, {state}")
        self.figures.in_flight.set(len(self.flight))
        self.figures.oldest.set(self.flight.age(now))
        self.figures.connected.set(bool(self.consumer))
        self.serving.look()
        self.look_at_journals()
        self.loop.call_later(TICK_SECONDS, self.tick)

    def look_at_journals(self) -> None:
        """Ends a bridge that waits if other files have the journals' names: a disk may be gone."""
        hosting = self.serving.hosting
        if not hosting.is_running and hosting.supervisor.files.are_others():
            say(NAME, Level.ERROR, f"the journals {self.options.journal} {REPLACED}")
            self.give_up(Status.REFUSED)

    def give_up(self, status: int) -> None:
        """Ends with a host's status, or with that of what passes."""
        self.status = Status.USAGE if status == Status.WORDS else status
        self.loop.stop()

    def stop(self) -> None:
        """Ends in order: no more deliveries, the host's last answers, their confirms."""
        if self.is_stopping:
            return
        self.is_stopping = True
        notify(NAME, "STOPPING=1")
        if self.link.channel and self.consumer:
            self.link.channel.basic_cancel(self.consumer)
        self.serving.stop()
        self.loop.call_later(STOP_SECONDS, self.loop.stop)
        self.end_if_idle()

    def end_if_idle(self) -> None:
        if self.is_stopping and self.serving.has_ended() and not self.link.unconfirmed:
            self.link.close(self.loop.stop)


def main(words: Sequence[str]) -> int:
    try:
        return BrokerBridge(options_of(words)).run()
    except Refusal as refusal:
        say(NAME, Level.ERROR, str(refusal))
        return Status.REFUSED
