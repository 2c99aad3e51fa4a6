"""Three machines on this one, as network namespaces, with a node of a RabbitMQ cluster on each.

usage: deploy/cluster up FOLDER [--partitions P] [--tick SECONDS]
       deploy/cluster status FOLDER
       deploy/cluster kill|start|cut|heal FOLDER MACHINE
       deploy/cluster rabbitmqctl FOLDER MACHINE WORD ..
       deploy/cluster down FOLDER

It is for tests and for trying. The machines are m1, m2 and m3; a bridge joins them, and this machine reaches all three.
`up` makes the folder, in it a folder for each machine with the broker's files and broker files of the three users
(issuer-operator, issuer-bridge, publisher), and declares the queues and streams of P partitions (4). A machine that no
longer answers is believed in for the seconds of --tick (8); give more where processors are scarce. `status` prints a
line a machine. A command runs on a machine by `ip netns exec NAMESPACE`, whose name `status` prints. `kill` ends all
that runs on a machine, as if its power were gone, and `start` begins its broker again. `cut` loses all packets to and
from it, and `heal` ends that. `rabbitmqctl` asks the broker of a machine. `down` ends all that runs there, takes the
machines away, and leaves the folder.

It needs root, iproute2, rabbitmq-server and python3-pika. Not for cards of anybody: the passwords are in the folder.
"""
import argparse
import os
import subprocess
from collections.abc import Sequence
from typing import NamedTuple, Optional

from issuer_host.facts.paths import HOME
from issuer_host.facts.refusal import Refusal, tell
from trials.bridges import private_broker
from trials.machines import network as networks
from trials.machines.brokers import Brokers, OPERATOR, TICK_SECONDS, write
from trials.machines.network import Machine, Network

PARTITIONS = 4
MARK = "cluster"
CONTROL = "rabbitmqctl"
# A node that just started says for some seconds that it has no copy of a stream, or that it knows no leader.
TRIES = 10


class Options(NamedTuple):
    """The words of the command."""

    what: str
    folder: str
    machine: str
    words: Sequence[str]
    partitions: int
    tick: int


class Cluster:
    """The machines of a folder, with their brokers."""

    def __init__(self, folder: str, tick: int = TICK_SECONDS) -> None:
        self.folder = os.path.realpath(folder)
        self.network = Network(self.folder)
        self.brokers = Brokers(self.network, self.folder, tick)

    def up(self, partitions: int) -> None:
        os.makedirs(self.folder, exist_ok=True)
        if os.listdir(self.folder):
            raise Refusal(
                f"{self.folder} isn't empty: a cluster is made in an empty folder, or in one that isn't there"
            )
        write(os.path.join(self.folder, MARK), f"{partitions}\n")
        try:
            self.network.up()
            self.brokers.write_files()
            self.brokers.start()
            self.declare(partitions)
        except BaseException:
            # (also if it is interrupted: nothing runs on)
            self.down()
            raise

    def declare(self, partitions: int) -> None:
        """Declares the queues and the streams, as the operator does."""
        file = self.brokers.url_file(OPERATOR, self.network.machines[0])
        words = [os.path.join(HOME, "deploy", "queues"), "--partitions", str(partitions), "--streams"]
        for _ in range(TRIES):
            done = subprocess.run([*words, "--broker-file", file], capture_output=True, text=True, check=False)
            if done.returncode == 0:
                return
        raise RuntimeError(f"the queues can't be declared: {done.stderr.strip()}")

    def down(self) -> None:
        self.network.down()

    def lines(self) -> list[str]:
        """Returns a line for each machine."""
        found = []
        for node in self.brokers.nodes:
            machine = node.machine
            count = len(self.network.processes(machine))
            answers = "answers" if node.is_ready() else "doesn't answer"
            where = f"{machine.name} {machine.address}, namespace {machine.namespace}"
            found.append(f"{where}: {count} processes, its broker {answers}")
        return found

    def machine(self, name: str) -> Machine:
        for machine in self.network.machines:
            if machine.name == name:
                return machine
        names = ", ".join(machine.name for machine in self.network.machines)
        raise Refusal(f"there is no machine {name!r}: they are {names}")

    def do(self, what: str, machine: Machine) -> None:
        """Has something happen to a machine."""
        if what == "kill":
            self.network.kill_all(machine)
        elif what == "cut":
            self.network.silence(machine)
        elif what == "heal":
            self.network.hear(machine)
        else:
            self.brokers.of(machine).start()


def why_absent() -> Optional[str]:
    return networks.why_absent() or private_broker.why_absent()


def options_of(words: Sequence[str]) -> Options:
    parser = argparse.ArgumentParser(usage=__doc__)
    parser.add_argument("what", choices=("up", "down", "status", "kill", "start", "cut", "heal", CONTROL))
    parser.add_argument("folder")
    parser.add_argument("machine", nargs="?", default="")
    # (what follows a machine's name may be words of rabbitmqctl, with options of its own)
    parser.add_argument("words", nargs=argparse.REMAINDER if CONTROL in words[:1] else "*")
    parser.add_argument("--partitions", type=int, default=PARTITIONS)
    parser.add_argument("--tick", type=int, default=TICK_SECONDS)
    return Options(**vars(parser.parse_args(words)))


def run(options: Options) -> None:
    why = why_absent()
    if why:
        raise Refusal(why)
    cluster = Cluster(options.folder, options.tick)
    if options.what == "up":
        cluster.up(options.partitions)
    elif not os.path.exists(os.path.join(options.folder, MARK)):
        raise Refusal(f"there is no cluster in {options.folder}")
    elif options.what == "down":
        cluster.down()
    elif options.what == CONTROL:
        print(cluster.brokers.of(cluster.machine(options.machine)).control(*options.words), end="")
        return
    elif options.what != "status":
        cluster.do(options.what, cluster.machine(options.machine))
    if options.what != "down":
        print("\n".join(cluster.lines()))


def main(words: Sequence[str]) -> int:
    os.umask(0o077)
    options = options_of(words)
    try:
        run(options)
    except (Refusal, RuntimeError, OSError) as fault:
        tell("cluster", str(fault))
        return 1
    return 0
