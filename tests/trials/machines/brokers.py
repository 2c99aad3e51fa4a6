"""A cluster of three RabbitMQ nodes, one on each machine, set as docs/operate/three-machines.md#the-broker says."""
import base64
import contextlib
import hashlib
import json
import os
import secrets
import shlex
import shutil
import signal
import socket
import subprocess
import time
from collections.abc import Callable, Mapping
from typing import Optional

from issuer_host.broker.rules import NODE_MAY, OPERATOR_MAY, PUBLISHER_LIMITS, publisher_may
from issuer_host.broker.settings import Permissions
from issuer_host.broker.topology import MAX_MESSAGE, stream_of
from issuer_host.facts.paths import HOME
from issuer_host.replication import cluster_keys
from issuer_host.replication.message_mac import MessageMacs
from trials.bridges.private_broker import COMMAND, CONTROL, LOOK_SECONDS
from trials.machines.network import Machine, Network

REJOIN = os.path.join(HOME, "deploy", "rejoin")
PORT, BETWEEN_NODES = 5672, 25672
OPERATOR, NODE, PUBLISHER = "issuer-operator", "issuer-bridge", "publisher"
USERS: Mapping[str, Permissions] = {OPERATOR: OPERATOR_MAY, NODE: NODE_MAY, PUBLISHER: publisher_may(PUBLISHER)}
# How long a machine is believed in that no longer answers, and how long a connection to one that is gone is tried.
TICK_SECONDS, SETUP_SECONDS, HEARTBEAT_SECONDS = 8, 2, 4
# (on a busy machine with the lowest share it takes minutes)
START_SECONDS = 600
SETTINGS = """\
listeners.tcp.1 = {address}:{port}
max_message_size = {message}
heartbeat = {heartbeat}
net_ticktime = {tick}
cluster_partition_handling = pause_minority
cluster_formation.peer_discovery_backend = classic_config
{peers}
{more}vm_memory_high_watermark.absolute = 1GB
disk_free_limit.absolute = 50MB
log.console = false
"""
ERLANG = "-kernel inet_dist_use_interface {address} net_setuptime {setup} +S 2:2 +sbwt none"


def name_of(machine: Machine) -> str:
    """Returns the long name of a machine's node, made of its address: nothing has to be resolved."""
    return f"rabbit@{machine.address}"


def hash_of(password: str) -> str:
    """Returns a password's hash as definitions have it."""
    salt = secrets.token_bytes(4)
    return base64.b64encode(salt + hashlib.sha256(salt + password.encode()).digest()).decode()


def definitions_of(passwords: Mapping[str, str]) -> dict[str, object]:
    """Returns the users, what they may do, and their limits."""
    users = [
        {
            "name": user,
            "password_hash": hash_of(password),
            "hashing_algorithm": "rabbit_password_hashing_sha256",
            "tags": [],
            "limits": PUBLISHER_LIMITS if user == PUBLISHER else {},
        }
        for user, password in passwords.items()
    ]
    permissions = [{"user": user, "vhost": "/", **may._asdict()} for user, may in USERS.items()]
    return {"vhosts": [{"name": "/"}], "users": users, "permissions": permissions}


class BrokerNode:
    """A machine's broker. Its data are in a folder of its own."""

    def __init__(self, network: Network, machine: Machine, folder: str) -> None:
        self.network = network
        self.machine = machine
        self.folder = folder
        self.process: "Optional[subprocess.Popen[bytes]]" = None
        self.watching: "Optional[subprocess.Popen[bytes]]" = None
        # What its processes have beside their environment.
        self.more: dict[str, str] = {}

    @property
    def pid_file(self) -> str:
        """The file of the process that leads the group of the node's processes: another command may kill it."""
        return os.path.join(self.folder, "pid")

    @property
    def watch_log(self) -> str:
        return os.path.join(self.folder, "rejoin.log")

    @property
    def environment(self) -> dict[str, str]:
        address = "{" + self.machine.address.replace(".", ",") + "}"
        return dict(os.environ) | {
            "HOME": self.folder,
            "RABBITMQ_NODENAME": name_of(self.machine),
            "RABBITMQ_USE_LONGNAME": "true",
            "RABBITMQ_CONFIG_FILE": os.path.join(self.folder, "rabbitmq.conf"),
            "RABBITMQ_MNESIA_BASE": os.path.join(self.folder, "data"),
            "RABBITMQ_LOG_BASE": os.path.join(self.folder, "log"),
            "RABBITMQ_ENABLED_PLUGINS_FILE": os.path.join(self.folder, "plugins"),
            "RABBITMQ_DIST_PORT": str(BETWEEN_NODES),
            "RABBITMQ_SERVER_ADDITIONAL_ERL_ARGS": ERLANG.format(address=address, setup=SETUP_SECONDS),
            "ERL_EPMD_RELAXED_COMMAND_CHECK": "1",
        }

    def write_files(self, cookie: str, tick: int, more: str) -> None:
        os.makedirs(self.folder)
        write(os.path.join(self.folder, ".erlang.cookie"), cookie, 0o400)
        peers = "\n".join(
            f"cluster_formation.classic_config.nodes.{number} = {name_of(machine)}"
            for number, machine in enumerate(self.network.machines, 1)
        )
        settings = SETTINGS.format(
            address=self.machine.address,
            port=PORT,
            message=MAX_MESSAGE,
            heartbeat=HEARTBEAT_SECONDS,
            tick=tick,
            peers=peers,
            more=more,
        )
        write(os.path.join(self.folder, "rabbitmq.conf"), settings)

    def start(self) -> None:
        with open(os.path.join(self.folder, "output"), "ab") as output:
            self.process = subprocess.Popen(
                self.network.command(self.machine, [COMMAND]),
                env=self.environment | self.more,
                cwd=self.folder,
                stdin=subprocess.DEVNULL,
                stdout=output,
                stderr=output,
                start_new_session=True,
            )
        write(self.pid_file, str(self.process.pid))

    def watch(self, *words: str) -> None:
        """Runs deploy/rejoin beside the node, if it doesn't run yet."""
        if self.watching is not None and self.watching.poll() is None:
            return
        words = (*words, "--kill", self.write_kill()) if "--kill" not in words else words
        with open(self.watch_log, "ab") as log:
            self.watching = subprocess.Popen(
                self.network.command(self.machine, [REJOIN, "--control", self.write_control(), *words]),
                stdin=subprocess.DEVNULL,
                stdout=log,
                stderr=log,
                start_new_session=True,
            )

    def write_control(self) -> str:
        """Writes what stands for rabbitmqctl on this machine, and returns its path. It may be given another --node."""
        own = {name: value for name, value in self.environment.items() if os.environ.get(name) != value}
        words = [f"{name}={value}" for name, value in own.items()]
        return self.write_script("control", shlex.join(["env", *words, CONTROL, "--longnames"]) + ' "$@"')

    def write_kill(self) -> str:
        """Writes what stands for the service manager: it kills this node, and starts it again."""
        cluster = os.path.join(HOME, "deploy", "cluster")
        start = shlex.join([cluster, "start", os.path.dirname(os.path.dirname(self.folder)), self.machine.name])
        return self.write_script("kill", f"kill -KILL -$(cat {self.pid_file}); sleep 1; exec {start}")

    def write_script(self, name: str, command: str) -> str:
        path = os.path.join(self.folder, name)
        write(f"{path}.new", f"#!/bin/sh\n{command}\n", 0o700)
        os.replace(f"{path}.new", path)
        return path

    def wipe(self) -> None:
        """Deletes all that the node keeps, as if its disk were gone."""
        shutil.rmtree(os.path.join(self.folder, "data"))

    def kill(self) -> None:
        """Ends the node as a crash does. Erlang's port mapper stays."""
        with open(self.pid_file, encoding="ascii") as text, contextlib.suppress(ProcessLookupError):
            os.killpg(int(text.read()), signal.SIGKILL)
        if self.process:
            self.process.wait()

    def is_ready(self) -> bool:
        try:
            with socket.create_connection((self.machine.address, PORT), 1):
                return True
        except OSError:
            return False

    def wait(self) -> None:
        wait_for(self.is_ready, START_SECONDS, f"the broker of {self.machine.name}, see {self.folder}/output")

    def control(self, *words: str) -> str:
        """Runs rabbitmqctl at this node, and returns what it prints."""
        command = [CONTROL, "--longnames", "--node", name_of(self.machine), "--quiet", *words]
        command = self.network.command(self.machine, command)
        done = subprocess.run(command, env=self.environment, capture_output=True, text=True, check=False)
        if done.returncode:
            raise RuntimeError(f"rabbitmqctl {words[0]} at {self.machine.name}: {done.stderr or done.stdout}")
        return done.stdout


class Brokers:
    """The three nodes, their users, and the files that name them."""

    def __init__(self, network: Network, folder: str, tick: int = TICK_SECONDS) -> None:
        self.network = network
        self.folder = folder
        self.tick = tick
        self.nodes = [
            BrokerNode(network, machine, os.path.join(folder, machine.name, "broker")) for machine in network.machines
        ]

    @property
    def definitions(self) -> str:
        return os.path.join(self.folder, "definitions.json")

    def url_file(self, user: str, machine: Machine) -> str:
        """Returns the broker file of a user for the node of a machine."""
        return os.path.join(self.folder, machine.name, f"{user}.url")

    def key_file(self, machine: Machine) -> str:
        """Returns the file with the key that the nodes of the machines share."""
        return os.path.join(self.folder, machine.name, "cluster-key")

    def macs(self, partition: int) -> MessageMacs:
        """Returns what signs and opens the messages of a partition's stream."""
        keys = cluster_keys.read(self.key_file(self.network.machines[0])).keys
        return MessageMacs(stream_of(partition), keys)

    def write_files(self) -> None:
        passwords = {user: secrets.token_hex(16) for user in USERS}
        write(self.definitions, json.dumps(definitions_of(passwords)))
        cookie, key = secrets.token_hex(16), secrets.token_hex(32)
        for node in self.nodes:
            # (the others have the users from the first one)
            is_first = node is self.nodes[0]
            node.write_files(cookie, self.tick, f"load_definitions = {self.definitions}\n" if is_first else "")
            write(self.key_file(node.machine), f"{key}\n")
            for user, password in passwords.items():
                url = f"amqp://{user}:{password}@{node.machine.address}:{PORT}/%2F\n"
                write(self.url_file(user, node.machine), url)

    def start(self) -> None:
        """Starts the nodes: the first one, which makes the users, and the others, which listen once they joined it."""
        first = self.nodes[0]
        for node in self.nodes:
            node.start()
            if node is first:
                node.wait()
        for node in self.nodes:
            node.wait()

    def of(self, machine: Machine) -> BrokerNode:
        return self.nodes[self.network.machines.index(machine)]


def wait_for(holds: Callable[[], bool], seconds: float, what: str) -> None:
    end = time.monotonic() + seconds
    while not holds():
        if time.monotonic() > end:
            raise RuntimeError(f"not there in {seconds:.0f} s: {what}")
        time.sleep(LOOK_SECONDS)


def comes(holds: Callable[[], bool], seconds: float) -> bool:
    """Whether something holds in so many seconds."""
    try:
        wait_for(holds, seconds, "")
    except RuntimeError:
        return False
    return True


def write(path: str, text: str, mode: int = 0o600) -> None:
    with open(os.open(path, os.O_WRONLY | os.O_CREAT | os.O_TRUNC, mode), "w", encoding="utf-8") as to:
        to.write(text)
