"""Orders by the files of nodes: each line goes to the machine that serves the partition of its card.

A node says at its socket which machine serves. If that one has no socket here, a command reaches it.
"""
import shlex
import subprocess
import time
from collections.abc import Callable, Sequence
from typing import NamedTuple, Optional

from issuer_host.facts.partitions import partition_of
from issuer_host.facts.refusal import Refusal
from issuer_host.orders.client import DONE_BEFORE, OrderConnection, Taker, connected
from issuer_host.orders.order_types import words_of
from issuer_host.orders.texts import BEFORE, DONE, HOST, NOT_DONE, ORDER
from issuer_host.replication import node_file
from issuer_host.replication.node_file import NodeSettings

# A machine that goes is followed by another one within this time, unless a person has to act.
SECONDS = 90.0
# Where no node of here listens, or the machine that serves isn't reached from here, it waits for so long alone.
UNREACHED_SECONDS = 10.0
LOOK_SECONDS = 0.3
# What stands for the machine's name in the command that reaches it.
MACHINE = "{}"


class Found(NamedTuple):
    """Who takes orders of a partition: a node of here that serves, other nodes of here, and who serves elsewhere."""

    serving: Optional[OrderConnection]
    others: list[OrderConnection]
    machine: str


class Outside(NamedTuple):
    """How the machine that serves is reached, if it isn't here; and the time."""

    reach: str = ""
    now: Callable[[], float] = time.monotonic
    wait: Callable[[float], None] = time.sleep


class NodeOrders(Taker):
    """Takes lines at the nodes of some files, each of which has all partitions."""

    def __init__(self, nodes: Sequence[NodeSettings], outside: Outside) -> None:
        self.nodes, self.outside = nodes, outside
        self.partitions = len(nodes[0].partitions)
        for node in nodes:
            if sorted(one.number for one in node.partitions) != list(range(self.partitions)):
                raise Refusal("the files lack a partition from 0 on, so that of a card isn't known: order by --socket")

    def reply_of(self, number: str, line: str) -> str:
        """Returns what became of a line. While no machine serves, or nobody knows what became of it, it asks again."""
        partition = partition_of(words_of(line)[1], self.partitions)
        began = self.outside.now()
        while True:
            found = self.find(partition)
            reply, is_final = self.put(found, number, line)
            if is_final or reply.partition(" ")[0] in (DONE, BEFORE):
                return reply
            if self.outside.now() - began > self.seconds(found):
                raise Refusal(self.why(found, partition, number, reply))
            self.outside.wait(LOOK_SECONDS)

    def seconds(self, found: Found) -> float:
        """Returns for how long a line is tried where it was last."""
        is_reached = bool(self.outside.reach) if found.machine else bool(found.serving or found.others)
        return SECONDS if is_reached else UNREACHED_SECONDS

    def find(self, partition: int) -> Found:
        takers = [taker for taker in map(connected, self.sockets(partition)) if taker is not None]
        named = ""
        for taker in takers:
            _, _, said = taker.ask(HOST).partition(" ")
            if said == "1":
                return Found(taker, [], "")
            named = said.partition(" ")[2] or named
        is_here = named in [node.machine for node in self.nodes]
        return Found(None, takers, "" if is_here else named)

    def sockets(self, partition: int) -> list[str]:
        return [one.orders for node in self.nodes for one in node.partitions if one.number == partition and one.orders]

    def put(self, found: Found, number: str, line: str) -> tuple[str, bool]:
        """Puts a line to who takes it. Returns the reply, and whether it is that of who serves, and so the last one."""
        if found.serving is not None:
            reply = found.serving.ask(f"{ORDER} {number} {line}")
            return reply, reply.startswith(f"{NOT_DONE} done") and found.serving.ask(HOST) == f"{HOST} 1"
        reply = ""
        if found.machine and self.outside.reach:
            reply, is_last = self.put_there(found.machine, number, line)
            if is_last:
                return reply, is_last
        # (an order wakes who is next, if the machine that served is gone)
        for taker in found.others[:1]:
            reply = taker.ask(f"{ORDER} {number} {line}")
        return reply, False

    def put_there(self, machine: str, number: str, line: str) -> tuple[str, bool]:
        """Has another machine take a line."""
        name, _, at = number.partition("/")
        words = [word.replace(MACHINE, machine) for word in shlex.split(self.outside.reach)]
        words += ["--number", name, "--first", at]
        try:
            ran = subprocess.run(words, input=f"{line}\n", capture_output=True, text=True, check=False)
        except OSError as fault:
            raise Refusal(f"--reach: {fault.filename}: {fault.strerror}") from fault
        said = ran.stderr.strip()
        if ran.returncode == 0:
            return f"{BEFORE if DONE_BEFORE in said else DONE} {ran.stdout.strip()}", True
        refused = said.partition(f"order: line {at}: {NOT_DONE} done: ")[2]
        return (f"{NOT_DONE} done: {refused}", True) if refused else (said, False)

    def why(self, found: Found, partition: int, number: str, reply: str) -> str:
        """Says what to do about a line that no machine took in time."""
        name, _, at = number.partition("/")
        again = f"give the same order with --number {name}: no line is put twice"
        if not self.sockets(partition):
            return f"line {at}: the files name no socket of orders of partition {partition}"
        if found.machine and not self.outside.reach:
            return f"line {at}: {found.machine} serves partition {partition}: there, or here with --reach, {again}"
        return f"line {at}: no machine took it in time: {reply or 'no node listens here'}; {again}"


def taker_of(paths: Sequence[str], reach: str) -> NodeOrders:
    """Returns who takes lines by the files of nodes."""
    return NodeOrders([node_file.read(path) for path in paths], Outside(reach))
