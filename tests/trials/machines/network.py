"""Machines as network namespaces that a bridge joins, and what can happen to their links."""
import contextlib
import hashlib
import os
import shutil
import signal
import subprocess
import time
import sys
from collections.abc import Iterator, Sequence
from typing import NamedTuple, Optional

from trials.machines.wire import WireSettings

MACHINES = 3
COMMANDS = {"ip": "iproute2", "bridge": "iproute2"}
# States of a bridge's port: it drops all frames without a word, or forwards them.
SILENT, FORWARDING = "0", "3"
DOWN_SECONDS = 60.0
LOOK_SECONDS = 0.05
INSIDE = "eth0"
WIRE = os.path.join(os.path.dirname(os.path.realpath(__file__)), "wire.py")


class Machine(NamedTuple):
    """A machine's name, its namespace, its address, and its port of the bridge."""

    name: str
    namespace: str
    address: str
    port: str


def why_absent() -> Optional[str]:
    """Returns why no namespaces can be made here, or None."""
    if os.geteuid() != 0:
        return "namespaces of the network are made by root alone"
    for command, package in COMMANDS.items():
        if shutil.which(command) is None:
            return f"{package} isn't installed"
    name = f"issuer-{os.getpid()}"
    done = subprocess.run(["ip", "netns", "add", name], capture_output=True, text=True, check=False)
    if done.returncode:
        return f"no namespace of the network can be made: {done.stderr.strip()}"
    run("ip", "netns", "delete", name)
    return None


def run(*words: str) -> str:
    done = subprocess.run(words, capture_output=True, text=True, check=False)
    if done.returncode:
        raise OSError(f"{' '.join(words)}: {done.stderr.strip()}")
    return done.stdout


class Network:
    """The machines of a folder. Their names and addresses are computed from its path."""

    def __init__(self, folder: str) -> None:
        digest = hashlib.sha256(os.path.realpath(folder).encode()).digest()
        self.tag = digest[:3].hex()
        self.bridge = f"is{self.tag}"
        prefix = f"10.{128 + digest[0] % 64}.{digest[1]}"
        self.own = f"{prefix}.254"
        self.machines = [
            Machine(f"m{number}", f"is{self.tag}-m{number}", f"{prefix}.{number}", f"is{self.tag}m{number}")
            for number in range(1, MACHINES + 1)
        ]

    def up(self) -> None:
        run("ip", "link", "add", self.bridge, "type", "bridge")
        run("ip", "address", "add", f"{self.own}/24", "dev", self.bridge)
        run("ip", "link", "set", self.bridge, "up")
        for machine in self.machines:
            run("ip", "netns", "add", machine.namespace)
            ends = [machine.port, "type", "veth", "peer", "name", INSIDE, "netns", machine.namespace]
            run("ip", "link", "add", *ends)
            run("ip", "link", "set", machine.port, "master", self.bridge, "up")
            inside = ["ip", "-n", machine.namespace]
            run(*inside, "address", "add", f"{machine.address}/24", "dev", INSIDE)
            run(*inside, "link", "set", "lo", "up")
            run(*inside, "link", "set", INSIDE, "up")

    def down(self) -> None:
        """Kills what runs on the machines, and takes them away; what is already gone is no fault."""
        for machine in self.machines:
            subprocess.run(["ip", "link", "delete", f"{machine.port}w"], capture_output=True, check=False)
            with contextlib.suppress(OSError):
                self.kill_all(machine)
            for words in (["ip", "link", "delete", machine.port], ["ip", "netns", "delete", machine.namespace]):
                subprocess.run(words, capture_output=True, check=False)
        subprocess.run(["ip", "link", "delete", self.bridge], capture_output=True, check=False)

    def command(self, machine: Machine, words: Sequence[str]) -> list[str]:
        """Returns the command that runs another one on a machine."""
        return ["ip", "netns", "exec", machine.namespace, *words]

    def processes(self, machine: Machine) -> list[int]:
        return [int(word) for word in run("ip", "netns", "pids", machine.namespace).split()]

    def signal_all(self, machine: Machine, number: int) -> None:
        for process in self.processes(machine):
            with contextlib.suppress(ProcessLookupError):
                os.kill(process, number)

    def kill_all(self, machine: Machine) -> None:
        """Kills all that runs on a machine, and what it starts meanwhile."""
        end = time.monotonic() + DOWN_SECONDS
        while self.processes(machine):
            self.signal_all(machine, signal.SIGKILL)
            if time.monotonic() > end:
                raise OSError(f"processes of {machine.name} don't end")
            time.sleep(LOOK_SECONDS)

    def silence(self, machine: Machine) -> None:
        """From here on all packets to and from a machine are lost, without a word to anybody."""
        run("bridge", "link", "set", "dev", machine.port, "state", SILENT)

    def hear(self, machine: Machine) -> None:
        run("bridge", "link", "set", "dev", machine.port, "state", FORWARDING)

    def unplug(self, machine: Machine) -> None:
        """The machine's interface is down, which its programs are told."""
        run("ip", "-n", machine.namespace, "link", "set", INSIDE, "down")

    def plug(self, machine: Machine) -> None:
        run("ip", "-n", machine.namespace, "link", "set", INSIDE, "up")

    def part(self, one: Machine, other: Machine) -> None:
        """Two machines no longer hear each other; the others hear both."""
        for machine in (one, other):
            run("bridge", "link", "set", "dev", machine.port, "isolated", "on")

    @contextlib.contextmanager
    def worse(self, machine: Machine, settings: WireSettings) -> Iterator[None]:
        """For a while a wire in user space stands between a machine and the bridge, which loses frames or is late."""
        end, far = f"{machine.port}w", f"{machine.port}x"
        run("ip", "link", "add", end, "type", "veth", "peer", "name", far)
        try:
            for interface in (end, far):
                run("ip", "link", "set", interface, "up")
            run("ip", "link", "set", far, "master", self.bridge)
            run("ip", "link", "set", machine.port, "nomaster")
            # (this machine is reached by the wire alone, and doesn't answer at the port itself)
            for interface in (end, machine.port):
                with open(f"/proc/sys/net/ipv4/conf/{interface}/arp_ignore", "w", encoding="ascii") as to:
                    to.write("8")
            wire = subprocess.Popen([sys.executable, WIRE, machine.port, end, *map(str, settings)])
            try:
                yield
            finally:
                wire.kill()
                wire.wait()
        finally:
            run("ip", "link", "set", machine.port, "master", self.bridge)
            subprocess.run(["ip", "link", "delete", end], capture_output=True, check=False)

    def heal(self) -> None:
        """All machines hear one another again."""
        for machine in self.machines:
            self.plug(machine)
            run("bridge", "link", "set", "dev", machine.port, "isolated", "off")
            self.hear(machine)
