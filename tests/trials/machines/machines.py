"""Three machines with a broker and a node each, and the partitions' journals on all of them."""
import collections
import contextlib
import os
import re
import random
import shutil
import signal
import subprocess
import threading
import time
from collections.abc import Sequence
from typing import Optional, Union

import pika

from issuer_host.broker import topology
from issuer_host.broker.redundancy import of_lines, redundancy_of, what_is_lost
from issuer_host.broker.settings import Control
from issuer_host.facts.partitions import partition_configuration
from issuer_host.facts.refusal import Refusal
from trials.machines.brokers import BrokerNode, NODE, OPERATOR, PUBLISHER, TICK_SECONDS, wait_for
from trials.machines.clock import Clock, ClockFault, build
from trials.machines.cluster import Cluster
from trials.machines.network import Machine
from trials.machines.nodes import ManagedNode, NODE as NODE_COMMAND

PARTITIONS, CALLERS = 8, 1
LOOK_SECONDS = 0.05
SERVING, WAITING = "serving", "waiting"
# What a node says that a partition is; its other lines are of troubles.
STATES = ("away", "reading", WAITING, "beginning", SERVING, "stopped")
BEGIN_SECONDS = 600.0
# The disk of a machine's journals.
DISK_BYTES = 64 << 20
FULL_SECONDS = 5.0
PIECE = 1 << 16


class Machines:
    """The three machines. What `Farm` has of one machine, they have of the first one, for the same checks."""

    def __init__(
        self,
        room: str,
        program: Optional[str],
        partitions: int = PARTITIONS,
        cluster: Optional[Cluster] = None,
        cluster_tick: int = TICK_SECONDS,
    ) -> None:
        """`cluster` is one that is there already, and stays."""
        self.room = room
        self.is_guest = cluster is not None
        self.program = program
        self.partitions = partitions
        # Those of the cluster's partitions that these nodes have.
        self.numbers: Sequence[int] = range(partitions)
        # Another program that decides than the nodes' own, as a wrong one; none if it is empty.
        self.rule = ""
        self.configurations = os.path.join(room, "configurations")
        self.is_loud = False
        # Whether deploy/rejoin runs beside each broker.
        self.are_watched = False
        self.is_ended = False
        self.lock = threading.Lock()
        # What was to happen and didn't.
        self.faults: list[str] = []
        # What can't be done here, and why.
        self.left_out: dict[str, str] = {}
        self.cluster = cluster or Cluster(os.path.join(room, "cluster"), cluster_tick)
        self.network = self.cluster.network
        self.brokers = self.cluster.brokers
        self.nodes = [ManagedNode(self.network, machine, self.folder(machine)) for machine in self.network.machines]
        self.clocks: list[Clock] = []
        self.disks: list[str] = []

    # What is on a machine

    def folder(self, machine: Machine) -> str:
        return os.path.join(self.room, machine.name)

    def journal_of(self, machine: Machine, partition: int) -> str:
        return os.path.join(self.folder(machine), "journals", str(partition), "journal")

    def journal(self, partition: int) -> str:
        return self.journal_of(self.network.machines[0], partition)

    def last_run_of(self, machine: Machine, partition: int) -> str:
        """Returns the file that says which journals the last run had."""
        return os.path.join(self.folder(machine), f"last-run-{partition}")

    def sockets(self, partition: int) -> list[str]:
        """Returns the sockets at which the nodes take orders for a partition."""
        return [os.path.join(self.folder(machine), f"orders-{partition}") for machine in self.network.machines]

    def node_of(self, machine: Machine) -> ManagedNode:
        return self.nodes[self.network.machines.index(machine)]

    def broker_of(self, machine: Machine) -> BrokerNode:
        return self.brokers.of(machine)

    def file_of(self, user: str) -> str:
        """Returns a user's broker file for the first machine's broker."""
        return self.brokers.url_file(user, self.network.machines[0])

    def publisher_files(self) -> list[str]:
        return [self.brokers.url_file(PUBLISHER, machine) for machine in self.network.machines]

    def description_of(self, machine: Machine) -> dict[str, object]:
        """Returns what a machine's node is told."""
        partitions = [
            {
                "number": partition,
                "configuration": partition_configuration(self.configurations, partition),
                "journal": self.journal_of(machine, partition),
                "callers": CALLERS,
                "orders": os.path.join(self.folder(machine), f"orders-{partition}"),
                "last_run": self.last_run_of(machine, partition),
            }
            for partition in self.numbers
        ]
        found: dict[str, object] = {
            "machine": machine.name,
            "broker_file": self.brokers.url_file(NODE, machine),
            "cluster_key_file": self.brokers.key_file(machine),
            "partitions": partitions,
            "figures": 0,
        }
        programs = {"program": self.program, "rule": self.rule}
        return found | {member: path for member, path in programs.items() if path}

    # Their beginning and their end

    def begin(self) -> None:
        """Starts the brokers and the nodes, each with journals that hold nothing yet."""
        self.begin_brokers()
        self.begin_nodes()

    def begin_brokers(self) -> None:
        for machine in self.network.machines:
            os.makedirs(os.path.join(self.folder(machine), "journals"))
        self.mount_disks()
        self.make_clocks()
        if self.is_guest:
            self.delete_queues()
            self.cluster.declare(self.partitions)
        else:
            self.cluster.up(self.partitions)

    def begin_nodes(self) -> None:
        for node in self.nodes:
            self.begin_journals(node)
        self.start_nodes()
        threading.Thread(target=self.manage, daemon=True).start()

    def begin_journals(self, node: ManagedNode) -> None:
        """Creates a machine's journals as an operator does."""
        for partition in self.numbers:
            os.makedirs(os.path.dirname(self.journal_of(node.machine, partition)))
        node.describe(self.description_of(node.machine))
        subprocess.run([*node.command[:-1], "--begin", node.file], stdout=subprocess.DEVNULL, check=True)

    def delete_queues(self) -> None:
        """Deletes the queues and the streams of another trial."""
        connection = pika.BlockingConnection(topology.parameters_of(self.file_of(OPERATOR)))
        channel = connection.channel()
        for partition in range(self.partitions):
            channel.queue_delete(topology.queue_of(partition))
            channel.queue_delete(topology.stream_of(partition))
        connection.close()

    def mount_disks(self) -> None:
        """Gives the journals of each machine a small disk of their own, where that can be."""
        for machine in self.network.machines:
            disk = os.path.join(self.folder(machine), "journals")
            command = ["mount", "-t", "tmpfs", "-o", f"size={DISK_BYTES},mode=0700", "tmpfs", disk]
            done = subprocess.run(command, capture_output=True, text=True, check=False)
            if done.returncode:
                self.left_out["disk"] = f"a small disk can't be mounted: {done.stderr.strip()}"
                return
            self.disks.append(disk)

    def make_clocks(self) -> None:
        library = None
        try:
            library = build(self.room)
        except ClockFault as fault:
            self.left_out["clock"] = str(fault)
        for node, its_broker in zip(self.nodes, self.brokers.nodes):
            clock = Clock(os.path.join(node.folder, "clock"), library)
            node.more = its_broker.more = clock.environment()
            self.clocks.append(clock)

    def manage(self) -> None:
        while not self.is_ended:
            with self.lock:
                for node in self.nodes:
                    node.look(time.monotonic())
                    if node.is_on and self.are_watched:
                        self.broker_of(node.machine).watch()
            time.sleep(LOOK_SECONDS)

    def start_nodes(self) -> None:
        with self.lock:
            for node in self.nodes:
                node.start()

    def kill_nodes(self) -> None:
        """Kills all nodes at once, and starts none of them."""
        with self.lock:
            for node in self.nodes:
                node.off()
                node.kill()

    def end_nodes_alone(self) -> None:
        """Ends all nodes in order. They may be started again."""
        with self.lock:
            for node in self.nodes:
                node.end()

    def end_nodes(self) -> None:
        self.is_ended = True
        self.end_nodes_alone()

    def end(self) -> None:
        self.end_nodes()
        if not self.is_guest:
            self.cluster.down()
        for disk in self.disks:
            subprocess.run(["umount", disk], check=False)
        self.disks.clear()

    def ends(self) -> "collections.Counter[Union[int, str]]":
        found: collections.Counter[Union[int, str]] = collections.Counter()
        for node in self.nodes:
            found += node.ends
        return found

    # What can happen to a machine

    def switch_off(self, machine: Machine, is_heard: bool = False) -> None:
        """A machine loses its power: nobody hears of it, if it isn't heard that its connections end."""
        with self.lock:
            self.node_of(machine).off()
            if not is_heard:
                self.network.silence(machine)
            self.network.kill_all(machine)

    def switch_on(self, machine: Machine) -> None:
        with self.lock:
            self.network.hear(machine)
            self.broker_of(machine).start()
            self.node_of(machine).start()

    def wipe(self, machine: Machine) -> None:
        """All that a machine kept is gone: its broker's data, and its journals."""
        self.broker_of(machine).wipe()
        for partition in range(self.partitions):
            shutil.rmtree(os.path.dirname(self.journal_of(machine, partition)))

    def replace_journals(self, machine: Machine, other: Machine) -> None:
        """Deletes all journals of a machine, and copies those of another one."""
        for partition in range(self.partitions):
            self.replace_journal(machine, other, partition)

    def replace_journal(self, machine: Machine, other: Machine, partition: int) -> None:
        """Deletes a partition's journals on a machine, and copies those of another one."""
        journal = self.journal_of(machine, partition)
        shutil.rmtree(os.path.dirname(journal), ignore_errors=True)
        os.makedirs(os.path.dirname(journal))
        command = [NODE_COMMAND, "--copy", self.journal_of(other, partition), journal]
        subprocess.run(command, stdout=subprocess.DEVNULL, check=True)
        with contextlib.suppress(FileNotFoundError):
            os.remove(self.last_run_of(machine, partition))

    def stop(self, machine: Machine) -> None:
        """All that runs on a machine stands still."""
        with self.lock:
            self.network.signal_all(machine, signal.SIGSTOP)

    def go_on(self, machine: Machine) -> None:
        with self.lock:
            self.network.signal_all(machine, signal.SIGCONT)

    def restart_broker(self, machine: Machine, seconds: float) -> None:
        node = self.broker_of(machine)
        node.kill()
        time.sleep(seconds)
        node.start()

    def fill_disk(self, machine: Machine) -> None:
        """Fills the disk of a machine's journals to its last byte, for a while."""
        filler = os.path.join(self.folder(machine), "journals", "filler")
        for piece in (bytes(PIECE), b"\0"):
            fill(filler, piece)
        time.sleep(FULL_SECONDS)
        os.remove(filler)

    def lost(self) -> list[str]:
        """Returns what isn't three of three, as the first machine's broker sees it."""
        control = self.network.command(self.network.machines[0], [self.brokers.nodes[0].write_control()])
        try:
            seen = redundancy_of(Control(control[0], "/", control[1:]))
        except (Refusal, ValueError) as fault:
            return [str(fault)]
        return [*what_is_lost(seen), *of_lines(seen, self.partitions)]

    def serving(self, partition: int) -> Optional[Machine]:
        """Returns the machine that serves a partition, as the nodes wrote last."""
        for node in self.nodes:
            if node.is_on and state_of(node.texts(), partition) == SERVING:
                return node.machine
        return None

    def pick_serving(self, dice: random.Random) -> Machine:
        """Returns a machine that serves some partition, or any if none is known to."""
        found = [self.serving(partition) for partition in range(self.partitions)]
        return dice.choice([machine for machine in found if machine] or self.network.machines)

    def wait_for_brokers(self) -> None:
        for node in self.brokers.nodes:
            node.wait()

    def wait_until_ready(self) -> None:
        """Waits until each partition is served on one machine and followed on the others."""
        wait_for(
            lambda: all(
                state_of(node.texts(), partition) in (SERVING, WAITING)
                for node in self.nodes
                for partition in self.numbers
            ),
            BEGIN_SECONDS,
            f"all nodes are ready, see {self.room}/m*/node.log",
        )

    def wait_until_served(self) -> None:
        """Waits until each partition is served somewhere."""
        wait_for(
            lambda: all(self.serving(partition) for partition in self.numbers),
            BEGIN_SECONDS,
            f"all partitions are served, see {self.room}/m*/node.log",
        )


def state_of(text: str, partition: int) -> str:
    """Returns the last state that a node wrote of a partition."""
    # (nodes of versions before, beside which these are measured, give a line no level)
    found = re.findall(rf"(?m)^node: partition {partition}: (?:\w+: )?({'|'.join(STATES)})\b", text)
    return str(found[-1]) if found else ""


def fill(path: str, piece: bytes) -> None:
    """Appends a piece again and again until the disk takes no more."""
    try:
        with open(path, "ab", buffering=0) as to:
            while True:
                to.write(piece)
    except OSError:
        # (that is what was wanted)
        pass
