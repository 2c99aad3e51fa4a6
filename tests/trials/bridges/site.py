"""One partition behind a private broker: its configuration, its journals, and its bridges as the unit runs them."""
import json
import os
import subprocess
import threading
import time
from collections.abc import Callable, Sequence
from typing import Any, Optional

from issuer_host.broker import topology as names
from issuer_host.facts.partitions import partition_configuration, partition_journal
from issuer_host.host import offline
from trials.bridges.cards import whole_configuration
from trials.bridges.farm import command_of, words_of_program
from trials.bridges.managed import GO_ON, ManagedBridge, TERMINATE
from trials.bridges.private_broker import PrivateBroker

LOOK_SECONDS = 0.02
SHARDS = 2
TRIES = 5


class Site:
    """A partition's files in a folder of its own, and its bridges."""

    def __init__(self, room: str, broker: PrivateBroker, partition: int, program: Optional[str], cards: int) -> None:
        self.room = os.path.join(room, f"site-{partition}")
        self.broker = broker
        self.partition = partition
        self.program = program
        os.makedirs(self.room)
        self.config = partition_configuration(self.room, partition)
        self.journal = partition_journal(self.room, partition)
        os.makedirs(os.path.dirname(self.journal))
        with open(self.config, "w", encoding="utf-8") as text:
            json.dump(whole_configuration(cards, SHARDS), text)
        offline.show(self.config, self.journal, program, begins=True)
        self.bridges: list[ManagedBridge] = []
        self.is_ended = False

    @property
    def queue(self) -> str:
        return names.queue_of(self.partition)

    def declare(self) -> None:
        """Declares the queues of all partitions up to this one."""
        words = ["--partitions", str(self.partition + 1), "--broker-file", self.broker.url_file]
        for _ in range(TRIES):
            # (a broker on a busy machine may not answer in time)
            if subprocess.run([command_of("queues"), *words], stdout=subprocess.DEVNULL, check=False).returncode == 0:
                return
        raise RuntimeError("the queues can't be declared")

    def command(self, *words: str) -> list[str]:
        files = ["--config", self.config, "--journal", self.journal]
        command = [command_of("bridge"), "--partition", str(self.partition), *files]
        broker_file = [] if "--broker-file" in words else ["--broker-file", self.broker.url_file]
        return [*command, *broker_file, *words_of_program(self.program), *words]

    def start(
        self, count: int, *words: str, begin: Sequence[str] = (), child: Optional[Callable[[], None]] = None
    ) -> None:
        """Starts so many bridges, with more words, by another command, or with something done in each child."""
        for number in range(len(self.bridges), len(self.bridges) + count):
            second = ["--second"] * (number > 0)
            bridge = ManagedBridge(self.room, self.partition, number, [*begin, *self.command(*words, *second)], child)
            bridge.start()
            self.bridges.append(bridge)
        if len(self.bridges) == count:
            threading.Thread(target=self.manage, daemon=True).start()

    def manage(self) -> None:
        while not self.is_ended:
            for bridge in self.bridges:
                bridge.look(time.monotonic())
            time.sleep(LOOK_SECONDS)

    def active(self) -> ManagedBridge:
        """Returns the bridge that has a host."""
        return next(bridge for bridge in self.bridges if bridge.host() is not None)

    def logs(self) -> str:
        """Returns what the bridges wrote."""
        found = []
        for bridge in self.bridges:
            with open(bridge.log, encoding="utf-8", errors="replace") as text:
                found.append(text.read())
        return "".join(found)

    def ends(self) -> list[Any]:
        """Returns how bridges ended so far."""
        return sorted((end for bridge in self.bridges for end in bridge.ends.elements()), key=str)

    def end(self) -> None:
        self.is_ended = True
        time.sleep(2 * LOOK_SECONDS)
        for bridge in self.bridges:
            bridge.signal(GO_ON)
            bridge.signal(TERMINATE)
        for bridge in self.bridges:
            bridge.end()
