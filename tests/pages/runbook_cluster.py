"""Three machines with a broker each, for the sections of docs/operate/runbook-machines.md whose faults are of brokers.

The machines are namespaces of the network. The commands of the page go to a shell on the first one. Its `ssh` runs a
command on another machine, and its service manager is a stand-in, which runs the broker and the node of each.
"""
import contextlib
import json
import os
import re
import shlex
import shutil
import subprocess
from collections.abc import Iterator, Sequence

from issuer_host.facts.answers import reply_of
from issuer_host.facts.paths import HOME
from issuer_host.packaging.make_deb import COMMANDS
from machines.lost_end_trial import answers_of, are_level
from pages.page_commands import Command, run_shell
from trials.bridges.cards import distinct_lines
from trials.bridges.farm import CARDS, make_configurations
from trials.bridges.private_broker import COMMAND
from trials.machines.brokers import OPERATOR, comes, name_of, write
from trials.machines.machines import Machines
from trials.machines.network import Machine

BROKER, NODE = "rabbitmq-server", "issuer-node"
# What the page calls the folders of a machine, and what they are below its folder here.
FOLDERS = (
    ("/var/lib/issuer-copies", "copies"),
    ("/var/lib/issuer", "journals"),
    ("/etc/issuer", ""),
    ("/run/issuer-node", ""),
    ("/root", "root"),
)
SETTLE_SECONDS, SECONDS = 240.0, 900.0
ASKED = 20
LOST = "lost its end"


class RunbookCluster:
    """The machines, with the units of a broker and a node on each."""

    def __init__(self, room: str, program: str, tick: int) -> None:
        make_configurations(room, program, 1)
        self.machines = Machines(room, program, 1, cluster_tick=tick)
        self.first, self.second, self.third = self.machines.network.machines
        self.lines = distinct_lines(CARDS, 1_000)

    # The machines' units

    def begin(self) -> None:
        self.machines.begin_brokers()
        for node in self.machines.nodes:
            self.machines.begin_journals(node)
            self.install(node.machine)
        self.systemctl("start", NODE)

    def install(self, machine: Machine) -> None:
        """Gives a machine the commands of the package, the stand-ins, and its units."""
        folder, broker = self.machines.folder(machine), self.machines.broker_of(machine)
        for name in ("bin", "units", "root", "copies"):
            os.mkdir(os.path.join(folder, name), 0o700)
        commands = {installed: os.path.join(HOME, "deploy", name) for name, installed in COMMANDS.items()}
        commands |= {name: os.path.join(HOME, "tests/stand_ins", name) for name in ("ssh", "systemctl")}
        for name, path in (commands | {"rabbitmqctl": broker.write_control()}).items():
            os.symlink(path, os.path.join(folder, "bin", name))
        write(os.path.join(folder, "namespace"), machine.namespace)
        shutil.copy(self.machines.file_of(OPERATOR), os.path.join(folder, "root/operator"))
        own = [f"{name}={value}" for name, value in broker.environment.items() if os.environ.get(name) != value]
        self.write_unit(machine, BROKER, ["env", *own, COMMAND])
        self.write_unit(machine, NODE, self.machines.node_of(machine).command)
        self.note(machine)

    def write_unit(self, machine: Machine, unit: str, command: Sequence[str]) -> None:
        write(os.path.join(self.machines.folder(machine), "units", f"{unit}.command"), json.dumps(command))

    def note(self, machine: Machine) -> None:
        """Tells the machine's service manager which process is the broker that this test has started."""
        process = self.machines.broker_of(machine).process
        assert process is not None
        write(os.path.join(self.machines.folder(machine), "units", f"{BROKER}.pid"), str(process.pid))

    def environment(self, machine: Machine) -> "dict[str, str]":
        folder = self.machines.folder(machine)
        own = {"RUNBOOK_FOLDER": f"{folder}/units", "RUNBOOK_MACHINES": self.machines.room, "TMPDIR": f"{folder}/root"}
        return dict(os.environ) | own | {"PATH": f"{folder}/bin:{os.environ['PATH']}"}

    def run_on(self, machine: Machine, words: Sequence[str]) -> "subprocess.Popen[bytes]":
        return subprocess.Popen(self.machines.network.command(machine, words), env=self.environment(machine))

    def systemctl(self, *words: str) -> None:
        """Has the service managers of all machines do something, and waits for them."""
        for done in [self.run_on(one, ["systemctl", *words]) for one in self.machines.network.machines]:
            done.wait()

    def log_of(self, machine: Machine) -> str:
        with open(os.path.join(self.machines.folder(machine), f"units/{NODE}.log"), encoding="utf-8") as text:
            return text.read()

    # The commands of the page

    def here(self, text: str) -> str:
        """Returns a text of the page with the files and the addresses of these machines."""
        first = self.machines.folder(self.first)
        for path, here in FOLDERS:
            text = re.sub(rf"(?<![\w/]){path}(?![\w-])", os.path.join(first, here).rstrip("/"), text)
        for number, machine in enumerate(self.machines.network.machines, 1):
            text = text.replace(f"rabbit@10.0.0.{number}", name_of(machine))
        # (here the journals are root's)
        return text.replace("issuer-replace ", "issuer-replace --user '' ")

    def commands_here(self, commands: Sequence[Command]) -> "list[Command]":
        return [Command(self.here(command.text), command.line) for command in commands]

    def run(self, script: str) -> "tuple[str, str]":
        """Runs a script on the first machine. Returns what it wrote and complained."""
        folder = self.machines.folder(self.first)
        path = os.path.join(folder, "root/script")
        write(path, script)
        words = shlex.join(self.machines.network.command(self.first, ["bash", path]))
        wrote, complained, _ = run_shell(words, folder, SECONDS, self.environment(self.first))
        return wrote, complained

    # What happens before a section

    def ask(self) -> "dict[str, str]":
        lines, self.lines = self.lines[:ASKED], self.lines[ASKED:]
        return answers_of(self.machines, lines)

    def whole(self) -> "list[str]":
        """Waits until nothing is missing, and returns what is."""
        comes(lambda: not self.machines.lost(), SETTLE_SECONDS)
        return self.machines.lost()

    def lose_disks(self) -> None:
        """The third machine loses its power and its disks, and is there again with empty ones."""
        self.ask()
        self.off(self.third)
        self.machines.wipe(self.third)

    def off(self, machine: Machine) -> None:
        self.machines.network.kill_all(machine)
        for unit in (BROKER, NODE):
            with contextlib.suppress(FileNotFoundError):
                os.remove(os.path.join(self.machines.folder(machine), f"units/{unit}.pid"))

    def brokers(self) -> Iterator[str]:
        for machine in self.machines.network.machines:
            yield self.machines.broker_of(machine).folder

    def all_off(self) -> None:
        for machine in self.machines.network.machines:
            self.off(machine)

    def all_on(self) -> None:
        for machine in self.machines.network.machines:
            self.machines.broker_of(machine).start()
        self.machines.wait_for_brokers()
        for machine in self.machines.network.machines:
            self.note(machine)
        self.systemctl("start", NODE)

    def lose_end(self) -> "dict[str, str]":
        """All brokers come back from older disks. Returns what was answered past their end."""
        self.all_off()
        for folder in self.brokers():
            shutil.copytree(os.path.join(folder, "data"), os.path.join(folder, "older"))
        self.all_on()
        answered = self.ask()
        comes(lambda: are_level(self.machines), SETTLE_SECONDS)
        self.all_off()
        for folder in self.brokers():
            shutil.rmtree(os.path.join(folder, "data"))
            os.rename(os.path.join(folder, "older"), os.path.join(folder, "data"))
        self.all_on()
        comes(lambda: not self.not_stopped(), SETTLE_SECONDS)
        return answered

    def not_stopped(self) -> "list[str]":
        """Returns the machines that haven't said that the stream lost its end."""
        return [one.name for one in self.machines.network.machines if LOST not in self.log_of(one)]

    def changed(self, answered: "dict[str, str]") -> "list[str]":
        """Asks again, and returns what isn't answered as before."""
        again = answers_of(self.machines, list(answered))
        return [
            f"{again[line]}, not {text}" for line, text in answered.items() if again[line] != f"kept {reply_of(text)}"
        ]

    def end(self) -> None:
        self.machines.end()


@contextlib.contextmanager
def begun(room: str, program: str, tick: int) -> "Iterator[RunbookCluster]":
    cluster = RunbookCluster(room, program, tick)
    try:
        cluster.begin()
        yield cluster
    finally:
        cluster.end()
