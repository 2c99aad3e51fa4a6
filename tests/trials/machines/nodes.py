"""A machine's node as a service manager runs it, and what can happen to it."""
import collections
import contextlib
import json
import os
import random
import signal
import subprocess
from collections.abc import Mapping, Sequence
from typing import Optional, Union

from issuer_host.facts.paths import HOME
from trials.bridges.managed import children_of, not_restarted, signal_to
from trials.machines.brokers import write
from trials.machines.network import Machine, Network

RESTART_SECONDS = 0.1
END_SECONDS = 20.0
NODE = os.path.join(HOME, "deploy", "node")


class ManagedNode:
    """A node that is started again when it ends, as a unit's rules say, while its machine is on."""

    def __init__(self, network: Network, machine: Machine, folder: str, command: Sequence[str] = (NODE,)) -> None:
        self.network = network
        self.machine = machine
        self.folder = folder
        self.file = os.path.join(folder, "node.json")
        self.command = [*command, self.file]
        self.prevented = not_restarted()
        self.is_on = False
        self.is_down = False
        self.process: "Optional[subprocess.Popen[bytes]]" = None
        self.ends: collections.Counter[Union[int, str]] = collections.Counter()
        self.died = 0.0
        self.log = os.path.join(folder, "node.log")
        # The lines by which it stopped partitions over files that weren't right, as it has to.
        self.excused: list[str] = []
        # What the node has beside this process's environment.
        self.more: dict[str, str] = {}

    def describe(self, description: Mapping[str, object]) -> None:
        """Writes the node's description."""
        write(self.file, json.dumps(description))

    def start(self) -> None:
        """Starts the node, unless it runs: a service manager has one of it."""
        self.is_on = True
        self.is_down = False
        if self.process is not None and self.process.poll() is None:
            return
        with open(self.log, "ab") as log:
            self.process = subprocess.Popen(
                self.network.command(self.machine, self.command),
                stdin=subprocess.DEVNULL,
                stdout=log,
                stderr=log,
                env=dict(os.environ) | self.more,
                start_new_session=True,
            )
        self.died = 0.0

    def look(self, now: float) -> None:
        """One look of the service manager."""
        if self.process is None or not self.is_on:
            return
        status = self.process.poll()
        if status is not None and not self.died:
            self.died = now
            self.ends[status] += 1
            self.is_down = status in self.prevented
        if self.died and not self.is_down and now - self.died > RESTART_SECONDS:
            self.start()

    def off(self) -> None:
        """The machine is off: nobody starts the node again."""
        self.is_on = False

    def signal(self, number: int) -> None:
        if self.process and self.process.poll() is None:
            os.kill(self.process.pid, number)

    def stop(self) -> None:
        """The node and its hosts stand still."""
        self.signal_group(signal.SIGSTOP)

    def go_on(self) -> None:
        self.signal_group(signal.SIGCONT)

    def kill(self) -> None:
        self.signal_group(signal.SIGKILL)

    def terminate(self) -> None:
        self.signal(signal.SIGTERM)

    def kill_host(self, dice: random.Random) -> None:
        """Kills one of the processes that the node started."""
        found = self.hosts()
        if found:
            signal_to(dice.choice(found), signal.SIGKILL)

    def signal_group(self, number: int) -> None:
        if self.process:
            with contextlib.suppress(ProcessLookupError):
                os.killpg(self.process.pid, number)

    def hosts(self) -> list[int]:
        """Returns the processes that the node started."""
        try:
            return children_of(self.process.pid) if self.process else []
        except OSError:
            return []

    def end(self) -> None:
        """Ends the node in order, or kills it if it doesn't."""
        self.off()
        self.signal(signal.SIGCONT)
        self.signal(signal.SIGTERM)
        if self.process is None:
            return
        try:
            self.process.wait(END_SECONDS)
        except subprocess.TimeoutExpired:
            self.ends["didn't end"] += 1
            os.killpg(self.process.pid, signal.SIGKILL)
            self.process.wait()

    def texts(self) -> str:
        """Returns what the node wrote."""
        with open(self.log, encoding="utf-8", errors="replace") as text:
            return text.read()
