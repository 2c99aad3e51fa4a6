"""A broker with all bridges of some partitions, and what can happen to them."""
import collections
import json
import os
import random
import subprocess
import threading
import time
from typing import Optional, Union

from issuer_host.facts.partitions import partition_configuration, partition_journal
from issuer_host.facts.paths import HOME, PROGRAM
from issuer_host.host import offline
from trials.bridges.cards import whole_configuration, with_account_row
from trials.bridges.installed import Installed
from trials.bridges.managed import GO_ON, ManagedBridge, TERMINATE
from trials.bridges.private_broker import PrivateBroker
from trials.bridges.two_addresses import command_before, url_file_of, without_inet6

PARTITIONS, SHARDS, CALLERS, CARDS = 4, 2, 2, 200
BRIDGES = 2
DISK_BYTES = 12 << 20
FULL_SECONDS = 1.5
LOOK_SECONDS = 0.02
PIECE = 1 << 16


def command_of(name: str) -> str:
    return os.path.join(HOME, "deploy", name)


def words_of_program(program: Optional[str]) -> list[str]:
    return ["--program", program] if program else []


class Farm:
    """The broker, the bridges and the partitions' journals, in one folder.

    The bridges are those of an installed copy. The second one of each partition finds the broker by its name.
    """

    def __init__(self, room: str, program: Optional[str], disk: Optional[str], is_loud: bool = False) -> None:
        self.room = room
        self.program = program
        self.partitions = PARTITIONS
        self.disk = disk
        self.is_loud = is_loud
        self.lock = threading.Lock()
        self.is_full = threading.Event()
        self.is_ended = False
        # What was to happen and didn't.
        self.faults: list[str] = []
        self.configurations = os.path.join(room, "configurations")
        self.broker = PrivateBroker(os.path.join(room, "broker"))
        self.broker.start()
        self.installed = Installed(room, program or PROGRAM)
        self.bridges: list[ManagedBridge] = []

    def begin(self) -> None:
        for partition in range(PARTITIONS):
            self.add_bridges(partition)
        self.broker.wait()
        self.declare()
        for bridge in self.bridges:
            bridge.start()
        threading.Thread(target=self.manage, daemon=True).start()

    def declare(self) -> None:
        """Declares all queues."""
        words = ["--partitions", str(PARTITIONS), "--broker-file", self.broker.url_file]
        done = subprocess.run([self.installed.command("queues"), *words], stdout=subprocess.DEVNULL, check=False)
        if done.returncode:
            raise OSError("the queues can't be declared")

    def add_bridges(self, partition: int) -> None:
        """Creates a partition's journals, and makes its bridges' commands."""
        config = partition_configuration(self.configurations, partition)
        journal = self.journal(partition)
        os.makedirs(os.path.dirname(journal), exist_ok=True)
        offline.show(config, journal, self.program, begins=True)
        command = [self.installed.command("bridge"), "--partition", str(partition), "--config", config]
        command += ["--journal", journal, "--callers", str(CALLERS)]
        command += ["--last-run", os.path.join(self.room, f"last-run-{partition}")]
        by_name = command_before(self.room)
        for number, path in enumerate(self.sockets(partition)):
            begun = [*command, "--orders", path, *["--second"] * (number > 0), "--broker-file"]
            if number and by_name:
                words = [*by_name, *begun, url_file_of(self.room, self.broker.port)]
                self.bridges.append(ManagedBridge(self.room, partition, number, words, without_inet6))
            else:
                words = [*begun, self.broker.url_file]
                self.bridges.append(ManagedBridge(self.room, partition, number, words))

    def sockets(self, partition: int) -> list[str]:
        """Returns the sockets at which the bridges of a partition take orders."""
        return [os.path.join(self.room, f"orders-{partition}-{number}") for number in range(BRIDGES)]

    def journal(self, partition: int) -> str:
        return partition_journal(self.room, partition)

    def manage(self) -> None:
        while not self.is_ended:
            with self.lock:
                for bridge in self.bridges:
                    bridge.look(time.monotonic())
            time.sleep(LOOK_SECONDS)

    def pick(self, dice: random.Random, is_active: bool) -> ManagedBridge:
        """A bridge that has a host, or one that hasn't; any if there is no such bridge."""
        with self.lock:
            found = [bridge for bridge in self.bridges if (bridge.host() is not None) == is_active]
            return dice.choice(found or self.bridges)

    def fill_disk(self) -> None:
        """Fills the first partition's disk to its last byte, for a while."""
        assert self.disk is not None
        filler = os.path.join(self.disk, "filler")
        for piece in (bytes(PIECE), b"\0"):
            fill(filler, piece)
        self.is_full.set()
        time.sleep(FULL_SECONDS)
        os.remove(filler)
        self.is_full.clear()

    def end(self) -> None:
        self.is_ended = True
        with self.lock:
            for bridge in self.bridges:
                bridge.signal(GO_ON)
                bridge.signal(TERMINATE)
            for bridge in self.bridges:
                bridge.end()

    def ends(self) -> "collections.Counter[Union[int, str]]":
        found: collections.Counter[Union[int, str]] = collections.Counter()
        for bridge in self.bridges:
            found += bridge.ends
        return found


def fill(path: str, piece: bytes) -> None:
    """Appends a piece again and again until the disk takes no more."""
    try:
        with open(path, "ab", buffering=0) as to:
            while True:
                to.write(piece)
    except OSError:
        # (that is what was wanted)
        pass


def make_configurations(room: str, program: Optional[str], partitions: int = PARTITIONS) -> None:
    """Cuts the cards by deploy/partition, as an operator does."""
    template = whole_configuration(CARDS, SHARDS)
    template["table"] = with_account_row(template["table"])
    cards = template.pop("cards")
    with open(os.path.join(room, "template"), "w", encoding="utf-8") as text:
        json.dump(template, text)
    rows = "".join(f"{card['pan']},{card['psn']},{card['method']}\n" for card in cards)
    with open(os.path.join(room, "cards"), "w", encoding="utf-8") as text:
        text.write("pan,psn,method\n" + rows)
    words = ["--of", str(partitions), "--cards", f"{room}/cards", "--template", f"{room}/template"]
    words += ["--to", os.path.join(room, "configurations"), *words_of_program(program)]
    subprocess.run([command_of("partition"), *words], stdout=subprocess.DEVNULL, check=True)
