"""Both bridges of a partition behind a private broker, with figures, as their units start them."""
import json
import os
import subprocess
from typing import Optional

from issuer_host.facts.paths import HOME
from trials.bridges.cards import whole_configuration
from trials.bridges.private_broker import free_port

FIRST, STANDBY = "issuer@0", "issuer-standby@0"


class TwoBridges:
    """The bridges of partition 0, whose journals are in the folder `0`."""

    def __init__(self, folder: str, url_file: str, program: str, cards: int = 8) -> None:
        self.folder, self.url_file, self.program, self.cards = folder, url_file, program, cards
        self.ports = {FIRST: free_port(), STANDBY: free_port()}
        self.config = os.path.join(folder, "0.json")
        self.journal = os.path.join(folder, "0", "journal")
        self.running: "dict[str, subprocess.Popen[bytes]]" = {}
        self.log = os.path.join(folder, "bridges.log")

    def begin(self) -> None:
        with open(os.open(self.config, os.O_CREAT | os.O_WRONLY, 0o600), "w", encoding="utf-8") as text:
            json.dump(whole_configuration(self.cards, 2), text)
        files = ["--config", self.config, "--journal", self.journal]
        begin = [f"{HOME}/deploy/issuer-run", "--begin", "--program", self.program, "show", *files]
        subprocess.run(begin, check=True, stdout=subprocess.DEVNULL)
        queues = [f"{HOME}/deploy/queues", "--partitions", "1", "--broker-file", self.url_file]
        subprocess.run(queues, check=True, stdout=subprocess.DEVNULL)
        self.start(FIRST)
        self.start_standby()

    def start(self, name: str, *more: str) -> None:
        words = ["--partition", "0", "--config", self.config, "--journal", self.journal, "--program", self.program]
        # (to the port of the word the number of the partition, 0, is added)
        words += ["--broker-file", self.url_file, "--figures", str(self.ports[name]), *more]
        words += ["--orders", os.path.join(self.folder, f"{name}.orders")]
        with open(self.log, "ab") as log:
            self.running[name] = subprocess.Popen([f"{HOME}/deploy/bridge", *words], stderr=log)

    def start_standby(self) -> None:
        self.start(STANDBY, "--second")

    @property
    def standby(self) -> "subprocess.Popen[bytes]":
        return self.running[STANDBY]

    def sockets(self) -> "list[str]":
        """Returns the sockets of orders."""
        return [os.path.join(self.folder, f"{name}.orders") for name in self.ports]

    def lines(self) -> "list[str]":
        """Returns the lines of the file of sources."""
        return [f"{name} http://127.0.0.1:{port}/metrics" for name, port in self.ports.items()]

    def end(self, name: Optional[str] = None) -> None:
        for one in [name] if name else list(self.running):
            self.running[one].kill()
            self.running[one].wait()
