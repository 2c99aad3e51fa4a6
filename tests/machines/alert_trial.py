"""Real faults of three machines, the figures that they make, and the alerts that fire from these figures."""
import subprocess
import time
from collections.abc import Iterator

from issuer_host.broker import topology
from issuer_host.replication.replace import ADD_MEMBER, DELETE_MEMBER
from machines.replacing_trial import ReplacingTrial
from trials.machines.brokers import name_of
from trials.machines.network import Machine
from trials.scraped_figures import ScrapedFigures, Target

WATCH_PORT, NODE_PORT = 9998, 9997
INTERVAL_SECONDS = 5.0
FETCH = "import sys, urllib.request as r; sys.stdout.write(r.urlopen(sys.argv[1], timeout=4).read().decode())"
# The alerts of several machines, of which each fault raises some.
ALERTS = (
    *("IssuerBrokerMissing", "IssuerMachineMissing", "IssuerRedundancyLost", "IssuerBrokerAlone", "IssuerBrokerAlarm"),
    *("IssuerCopyMissing", "IssuerPartitionStopped", "IssuerBrokerNotLookedAt", "IssuerMachineBehind"),
)


class FaultFigures:
    """The figures of all machines, one sample after another as Prometheus would take them."""

    def __init__(self, trial: ReplacingTrial) -> None:
        self.trial = trial
        self.began = time.monotonic()
        self.scraped = ScrapedFigures(self.targets, ALERTS, INTERVAL_SECONDS)

    def begin(self) -> None:
        """Has all nodes and all watchers give figures."""
        machines = self.trial.machines
        machines.end_nodes_alone()
        for node in machines.nodes:
            node.describe({**machines.description_of(node.machine), "figures": NODE_PORT})
            machines.broker_of(node.machine).watch("--every", "3", "--figures", str(WATCH_PORT))
        machines.start_nodes()
        self.trial.whole("after all nodes were started with figures")
        self.began = time.monotonic()

    def watch(self, seconds: float, *firing: str) -> None:
        """Takes samples for a while. At the end just these alerts fire."""
        end = time.monotonic() + seconds
        while time.monotonic() < end:
            due = self.began + self.scraped.count * INTERVAL_SECONDS
            time.sleep(max(0.0, due - time.monotonic()))
            # (a sample that was late stands for those that it missed)
            self.scraped.scrape(max(self.scraped.count, int((time.monotonic() - self.began) / INTERVAL_SECONDS)))
        self.scraped.expect(*firing)

    def targets(self) -> Iterator[Target]:
        for machine in self.trial.machines.network.machines:
            for job, port in (("issuer", NODE_PORT), ("issuer-broker", WATCH_PORT)):
                yield Target(f'instance="{machine.name}", job="{job}"', self.page(machine, port))

    def page(self, machine: Machine, port: int) -> str:
        words = ["/usr/bin/python3", "-c", FETCH, f"http://127.0.0.1:{port}/metrics"]
        done = subprocess.run(
            self.trial.machines.network.command(machine, words), capture_output=True, text=True, check=False
        )
        return done.stdout if done.returncode == 0 else ""

    def check(self) -> None:
        """Has promtool evaluate the rules over the figures, and holds what fires against what has to."""
        why_not = self.scraped.why_not()
        self.trial.tally.check(not why_not, f"the alerts: {why_not}")


def second_things_fire_alerts(trial: ReplacingTrial) -> None:
    """A broker lacks a queue's copy, and its machine's node ends: that is one thing, and no page. Another machine's
    node that ends beside it is a second one."""
    figures, machines = FaultFigures(trial), trial.machines
    first, second, third = machines.network.machines
    figures.begin()
    figures.watch(20.0)
    change_copy(trial, first, third, DELETE_MEMBER)
    figures.watch(150.0, "IssuerCopyMissing")
    end_node(trial, third)
    tickets = ("IssuerCopyMissing", "IssuerMachineMissing")
    figures.watch(120.0, *tickets)
    start_node(trial, third)
    figures.watch(120.0, "IssuerCopyMissing")
    end_node(trial, second)
    figures.watch(90.0, *tickets, "IssuerRedundancyLost")
    start_node(trial, second)
    change_copy(trial, first, third, ADD_MEMBER)
    trial.whole("after the copy and the node came back")
    figures.watch(60.0)
    figures.check()


def change_copy(trial: ReplacingTrial, by: Machine, machine: Machine, call: str) -> None:
    """Takes the copy of partition 0's queue from a machine, or gives it one."""
    found = call.format(host="/", broker=name_of(machine)).replace("Queue", f'<<"{topology.queue_of(0)}">>', 1)
    trial.machines.broker_of(by).control("eval", f"{found}.")


def end_node(trial: ReplacingTrial, machine: Machine) -> None:
    with trial.machines.lock:
        trial.machines.node_of(machine).off()
        trial.machines.node_of(machine).kill()


def start_node(trial: ReplacingTrial, machine: Machine) -> None:
    with trial.machines.lock:
        trial.machines.node_of(machine).start()


def faults_fire_alerts(trial: ReplacingTrial) -> None:
    """One of three goes, then a second thing; an alarm; a broker that is alone: each fires its alerts and no others."""
    figures, machines = FaultFigures(trial), trial.machines
    first, second, third = machines.network.machines
    figures.begin()
    figures.watch(40.0)
    machines.switch_off(third, is_heard=True)
    figures.watch(150.0, "IssuerBrokerMissing", "IssuerMachineMissing", "IssuerBrokerNotLookedAt")
    end_node(trial, second)
    both = ("IssuerBrokerMissing", "IssuerMachineMissing", "IssuerBrokerNotLookedAt", "IssuerRedundancyLost")
    figures.watch(60.0, *both)
    start_node(trial, second)
    machines.switch_on(third)
    machines.broker_of(third).wait()
    machines.broker_of(third).watch("--every", "3", "--figures", str(WATCH_PORT))
    trial.whole("after both came back")
    figures.watch(60.0)
    machines.broker_of(first).control("set_disk_free_limit", "9999GB")
    figures.watch(40.0, "IssuerBrokerAlarm")
    machines.broker_of(first).control("set_disk_free_limit", "50MB")
    figures.watch(40.0)
    trial.wipe(third)
    machines.broker_of(third).start()
    machines.broker_of(third).wait()
    machines.broker_of(third).watch("--every", "3", "--figures", str(WATCH_PORT))
    figures.watch(150.0, "IssuerBrokerMissing", "IssuerMachineMissing", "IssuerBrokerAlone")
    figures.check()
