"""A machine that was away while more was written than a stream keeps: it stops, and begins from copies."""
import pika

from issuer_host.broker import topology
from trials.bridges.cards import distinct_lines
from trials.bridges.farm import CARDS
from trials.bridges.tally import Tally
from trials.machines.brokers import OPERATOR, comes
from trials.machines.haunting import are_same, ask
from trials.machines.machines import Machines

# So many bytes a stream keeps, in segments of so many.
KEPT_BYTES, SEGMENT_BYTES = 60_000, 20_000
BEFORE, MEANWHILE, AFTER = 30, 1_000, 30
ANSWER_SECONDS = 300.0
SETTLE_SECONDS = 120.0
STOPPED = ": stopped: "


def keep_little(machines: Machines, partition: int) -> None:
    """Declares a partition's stream anew: it keeps little."""
    connection = pika.BlockingConnection(topology.parameters_of(machines.file_of(OPERATOR)))
    channel = connection.channel()
    stream = topology.stream_of(partition)
    channel.queue_delete(stream)
    arguments = topology.stream_arguments(KEPT_BYTES) | {"x-stream-max-segment-size-bytes": SEGMENT_BYTES}
    channel.queue_declare(stream, durable=True, arguments=arguments)
    channel.queue_bind(stream, topology.RECORDS, stream)
    connection.close()


def play_away(machines: Machines, tally: Tally) -> None:
    """A machine that follows is away for too long. It stops with a sentence, and copies bring it back."""
    machines.begin_brokers()
    keep_little(machines, 0)
    machines.begin_nodes()
    machines.wait_until_ready()
    lines = distinct_lines(CARDS, BEFORE + MEANWHILE + AFTER)
    ask(machines, lines[:BEFORE], tally, ANSWER_SECONDS)
    serving = machines.serving(0)
    node = next(one for one in machines.nodes if one.machine != serving)
    with machines.lock:
        node.off()
        node.kill()
    ask(machines, lines[BEFORE : BEFORE + MEANWHILE], tally, ANSWER_SECONDS)
    node.start()
    tally.check(
        comes(lambda: STOPPED in node.texts(), SETTLE_SECONDS),
        f"{node.machine.name} goes on without what the stream lost",
    )
    with machines.lock:
        node.end()
    other = next(one for one in machines.network.machines if one != node.machine)
    machines.replace_journals(node.machine, other)
    node.start()
    ask(machines, lines[BEFORE + MEANWHILE :], tally, ANSWER_SECONDS)
    tally.check(comes(lambda: are_same(machines), SETTLE_SECONDS), "the machines' journals aren't the same")
    machines.end_nodes()
