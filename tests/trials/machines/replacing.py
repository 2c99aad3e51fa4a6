"""A machine that lost all its disks, and is replaced by `deploy/replace` as a person does it, who is interrupted."""
import os
import random
import subprocess
from collections.abc import Sequence

from issuer_host.facts.paths import HOME
from trials.machines.brokers import name_of
from trials.machines.machines import Machines
from trials.machines.network import Machine

REPLACE = os.path.join(HOME, "deploy", "replace")
DONE = "three of three: "
# What the command says where something has to be started that it can't start.
START_BROKER, START_NODE = "start the broker on its machine", "systemctl start issuer-node"
# The person's patience: so often the command is run, so long a run may take, and one run is killed within so long.
RUNS, RUN_SECONDS, KILLED_SECONDS = 8, 900.0, 25.0


class MachineReplacement:
    """The machine that is replaced, and one that lives."""

    def __init__(self, machines: Machines, machine: Machine, living: Machine) -> None:
        self.machines, self.machine, self.living = machines, machine, living
        self.outputs: list[str] = []

    def command(self) -> list[str]:
        """Returns the command as it is run on the new machine."""
        broker, node = self.machines.broker_of(self.machine), self.machines.node_of(self.machine)
        copies = self.machines.journal_of(self.living, 0).replace("/0/", "/{}/")
        words = [REPLACE, name_of(self.machine), "--by", name_of(self.living), "--control", broker.write_control()]
        words += ["--node-file", node.file, "--copies", copies, "--user", ""]
        return self.machines.network.command(self.machine, words)

    def run(self, seconds: float = RUN_SECONDS) -> int:
        """Runs the command, and kills it if it takes longer."""
        ran = subprocess.Popen(self.command(), stdout=subprocess.PIPE, stderr=subprocess.STDOUT, text=True)
        try:
            said = ran.communicate(timeout=seconds)[0]
        except subprocess.TimeoutExpired:
            ran.kill()
            said = ran.communicate()[0] + "(killed)\n"
        self.outputs.append(said)
        return ran.returncode

    def play(self, dice: random.Random) -> None:
        """Does what a person does: runs the command, starts what it names, and runs it again, once after a kill."""
        is_killed = False
        for _ in range(RUNS):
            if self.run(dice.uniform(0.0, KILLED_SECONDS) if is_killed else RUN_SECONDS) == 0:
                break
            said = self.outputs[-1]
            is_killed = START_BROKER in said
            if START_BROKER in said:
                self.machines.broker_of(self.machine).start()
                self.machines.broker_of(self.machine).wait()
            elif START_NODE in said:
                with self.machines.lock:
                    self.machines.node_of(self.machine).start()
        if not is_done(self.outputs):
            raise RuntimeError(f"the machine isn't replaced: {self.outputs}")


def is_done(outputs: Sequence[str]) -> bool:
    return bool(outputs) and outputs[-1].rstrip("\n").rpartition("\n")[2].startswith(DONE)
