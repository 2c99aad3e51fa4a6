"""Machines that lose redundancy by real faults: what is seen of it, and what mends it."""
import contextlib
import os
import re
import subprocess
import tempfile
import threading
import time
from collections.abc import Iterator

from issuer_host.broker.redundancy import Redundancy, redundancy_of
from issuer_host.broker.settings import Control
from issuer_host.facts.paths import HOME
from trials.bridges.cards import distinct_lines
from trials.bridges.farm import CARDS, make_configurations
from trials.bridges.tally import Tally
from trials.machines.brokers import comes, name_of, write
from trials.machines.haunting import ask
from trials.machines.machines import Machines
from trials.machines.network import Machine

PARTITIONS = 2
ASKED, ANSWER_SECONDS = 20, 300.0
SETTLE_SECONDS = 240.0
PAGE = os.path.join(HOME, "docs/operate/three-machines.md")
REPLACE = os.path.join(HOME, "deploy", "replace")
REPLACES = re.compile(r"\*\*Replace a machine\*\*(.*?)\n(?:\*\*|## )", re.DOTALL)
DONE = "three of three: "


class ReplacingTrial:
    """Three machines whose partitions are served, and requests that are asked of them."""

    def __init__(self, machines: Machines, tally: Tally) -> None:
        self.machines, self.tally = machines, tally
        self.lines = iter(distinct_lines(CARDS, 1_000))

    def begin(self) -> None:
        self.machines.begin()
        self.machines.wait_until_ready()
        self.whole("at the beginning")

    def ask(self) -> None:
        ask(self.machines, [next(self.lines) for _ in range(ASKED)], self.tally, ANSWER_SECONDS)

    def whole(self, when: str) -> None:
        is_whole = comes(lambda: not self.machines.lost(), SETTLE_SECONDS)
        self.tally.check(is_whole, f"{when} it isn't three of three: {self.machines.lost()}")

    def seen_by(self, machine: Machine) -> Redundancy:
        words = self.machines.network.command(machine, [self.machines.broker_of(machine).write_control()])
        return redundancy_of(Control(words[0], "/", [*words[1:], "--node", name_of(machine)]))

    def wipe(self, machine: Machine) -> None:
        self.machines.switch_off(machine)
        self.machines.wipe(machine)
        time.sleep(2.0)
        self.machines.network.hear(machine)


@contextlib.contextmanager
def begun(program: str, tick: int, tally: Tally, is_watched: bool = False) -> Iterator[ReplacingTrial]:
    with tempfile.TemporaryDirectory(prefix="issuer-replaced-") as room:
        make_configurations(room, program, PARTITIONS)
        machines = Machines(room, program, PARTITIONS, cluster_tick=tick)
        machines.are_watched = is_watched
        trial = ReplacingTrial(machines, tally)
        try:
            trial.begin()
            yield trial
        finally:
            machines.end()


def commands_of_page() -> list[str]:
    """Returns the commands by which docs/operate/three-machines.md replaces a machine."""
    with open(PAGE, encoding="utf-8") as text:
        found = REPLACES.search(text.read() + "\n## ")
    assert found is not None
    return [line[4:] for line in found[1].splitlines() if line.startswith("    ")]


def command_here(trial: ReplacingTrial, command: str, new: Machine, living: Machine) -> str:
    """Returns a command of the page for the machines of a trial."""
    machines = trial.machines
    copies, flag = os.path.join(machines.room, "copies"), os.path.join(machines.room, "start-node")
    start = f"{HOME}/deploy/cluster start {machines.cluster.folder} {new.name}"
    for words, here in (
        ("/var/lib/issuer-copies", copies),
        ("ssh 10.0.0.1 ", "sh -c "),
        ("cd /var/lib/issuer ", f"cd {machines.folder(living)}/journals "),
        ("issuer-replace ", f"{HOME}/deploy/replace --user '' --control {machines.broker_of(new).write_control()} "),
        ("rabbit@10.0.0.3", name_of(new)),
        ("rabbit@10.0.0.1", name_of(living)),
        ("/etc/issuer/node.json", machines.node_of(new).file),
        ("systemctl start rabbitmq-server", start),
        ("systemctl start issuer-node", f"touch {flag}"),
    ):
        command = command.replace(words, here)
    return command


def start_node_at(trial: ReplacingTrial, machine: Machine) -> threading.Thread:
    """Starts a machine's node once the commands of the page ask its service manager to."""
    flag = os.path.join(trial.machines.room, "start-node")

    def watch() -> None:
        if comes(lambda: os.path.exists(flag), 900.0):
            with trial.machines.lock:
                trial.machines.node_of(machine).start()

    thread = threading.Thread(target=watch, daemon=True)
    thread.start()
    return thread


def replaced_by_the_page(trial: ReplacingTrial) -> None:
    """A machine loses its disks, and the page's commands replace it; then the next one may go."""
    machines, tally = trial.machines, trial.tally
    trial.ask()
    new = machines.serving(0) or machines.network.machines[2]
    living = next(one for one in machines.network.machines if one != new)
    trial.wipe(new)
    trial.ask()
    thread = start_node_at(trial, new)
    for command in commands_of_page():
        words = machines.network.command(new, ["sh", "-c", command_here(trial, command, new, living)])
        done = subprocess.run(words, capture_output=True, text=True, check=False)
        tally.check(done.returncode == 0, f"{command}: {done.stdout}{done.stderr}")
    tally.check(DONE in done.stdout, f"what it ends with: {done.stdout}{done.stderr}")
    print(done.stdout, end="")
    thread.join()
    trial.whole("after a machine was replaced")
    again = subprocess.run(words, capture_output=True, text=True, check=False)
    said = again.stdout.splitlines()
    tally.check(len(said) == 1 and said[0].startswith(DONE), f"run again: {again.stdout}{again.stderr}")
    machines.switch_off(living)
    trial.ask()
    machines.switch_on(living)
    trial.whole("after the next machine came back")


def stands_alone(trial: ReplacingTrial) -> None:
    """A broker whose disk is new and who is started, as by a boot, stands alone: it is seen, and told."""
    machines, tally = trial.machines, trial.tally
    new = machines.network.machines[1]
    broker = machines.broker_of(new)
    trial.wipe(new)
    broker.start()
    broker.wait()
    tally.check(
        comes(lambda: trial.seen_by(new).is_of_its_own(), 60.0), "it doesn't stand alone: the trial shows nothing"
    )
    tally.check(bool(machines.lost()), "the others miss nothing")
    broker.watch()
    log = os.path.join(broker.folder, "rejoin.log")
    others = [name_of(one) for one in machines.network.machines if one != new]
    expected = [f"in a cluster of its own: issuer-replace {name_of(new)} --by {other}" for other in others]
    tally.check(comes(lambda: any(one in text_of(log) for one in expected), 60.0), f"rejoin says {text_of(log)}")
    replace_from_living(trial, new, machines.network.machines[0])


def replace_from_living(trial: ReplacingTrial, new: Machine, living: Machine) -> None:
    """From the machine that lives the command does all but the journals and the node, and names these."""
    machines, tally = trial.machines, trial.tally
    words = [REPLACE, name_of(new), "--by", name_of(living), "--control", machines.broker_of(living).write_control()]
    words = machines.network.command(living, words)
    done = subprocess.run(words, capture_output=True, text=True, check=False)
    is_named = "machines stand in the line" in done.stderr and "issuer-node --copy" in done.stderr
    tally.check(done.returncode == 1 and is_named, f"what is missing then: {done.stdout}{done.stderr}")
    machines.replace_journals(new, living)
    with machines.lock:
        machines.node_of(new).start()
    trial.whole("after the journals were copied by hand")
    done = subprocess.run(words, capture_output=True, text=True, check=False)
    tally.check(done.returncode == 0 and done.stdout.startswith(DONE), f"{done.stdout}{done.stderr}")


def hangs(trial: ReplacingTrial) -> None:
    """A broker's node whose application doesn't run is killed, and comes back."""
    machines, tally = trial.machines, trial.tally
    machine = machines.network.machines[0]
    broker = machines.broker_of(machine)
    with machines.lock:
        machines.node_of(machine).off()
    again = os.path.join(broker.folder, "again")
    start = f"{HOME}/deploy/cluster start {machines.cluster.folder} {machine.name}"
    write(again, f"#!/bin/sh\nkill -KILL -$(cat {broker.pid_file})\nsleep 1\nexec {start}\n", 0o700)
    broker.watch("--hung", "10", "--every", "2", "--kill", again)
    log = os.path.join(broker.folder, "rejoin.log")
    time.sleep(5.0)
    broker.control("stop_app")
    tally.check(comes(lambda: "it is killed" in text_of(log), 120.0), f"rejoin says {text_of(log)}")
    tally.check(comes(broker.is_ready, 240.0), "the broker doesn't come back")
    with machines.lock:
        machines.node_of(machine).start()
    trial.whole("after a broker that hung was killed")


def text_of(path: str) -> str:
    try:
        with open(path, encoding="utf-8") as text:
            return text.read()
    except FileNotFoundError:
        return ""
