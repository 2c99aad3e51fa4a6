"""A folder that stands in for a machine with the package installed, for the commands of docs/operate/runbook.md.

The commands of the package are those of this tree. The service manager and its log are stand-ins, which run a gateway,
and a bridge whose broker is a pair of pipes.
"""
import hashlib
import json
import os
import re
import shutil
import subprocess
import sys
from typing import Any

from checks import Tally
from issuer_host.facts.paths import HOME
from issuer_host.packaging.make_deb import COMMANDS
from runs import table_row
from trials.bridges.private_broker import free_port

COPIES = ("issuer", "deploy", "issuer_host", "VERSION")
# What stands in for the folders of a machine.
FOLDERS = ("/etc/issuer", "/var/lib/issuer", "/var/backups/issuer", "/root", "/run")
FIGURES = "9999"
UNIT = "issuer-gateway"
DIALECT = "1987-ascii"
CARDS = ("4000000000000002,00,1", "4000000000000010,00,2", "4000000000000028,00,1")

# Keys that no check warns of.
KEYS = ("6D2B8F1A94C73E5027B6D1E8590CA3F4", "A91C5E70D38B4F26182D7AE3C5904FB6", "5E97A3C1084D6BF273A8C4E91D5F206B")


def template() -> dict[str, Any]:
    # (bench/request_lines makes lines by the first of these keys)
    keys = {"dki": 1, "option": "A", "ac": bytes(range(16)).hex(), "smi": KEYS[0]}
    table = [table_row("3036", False, "00000000", status=1), table_row("3030", True, "00800000")]
    return {"shards": 2, "keys": [keys], "table": table}


class Machine:
    """A folder that has what a machine has with the package installed."""

    def __init__(self, tally: Tally, folder: str) -> None:
        self.tally = tally
        self.folder = folder
        self.home = os.path.join(folder, "usr/lib/issuer")
        self.bin = os.path.join(folder, "usr/bin")
        # Where the gateway listens, and where its figures are.
        self.listens = free_port()
        self.port = free_port()
        for path in (*FOLDERS, "/usr/bin", "/var/lib/issuer/0", "/root/pin", "/units", "/tmp"):
            os.makedirs(folder + path, mode=0o700)
        self.install()
        self.configure()

    @property
    def files(self) -> tuple[str, str]:
        """The configuration and the journals' name."""
        return f"{self.folder}/etc/issuer/0.json", f"{self.folder}/var/lib/issuer/0/journal"

    def install(self) -> None:
        for name in COPIES:
            source, to = os.path.join(HOME, name), os.path.join(self.home, name)
            if os.path.isdir(source):
                shutil.copytree(source, to, ignore=shutil.ignore_patterns("__pycache__"))
            else:
                os.makedirs(self.home, exist_ok=True)
                shutil.copy(source, to)
        os.mkdir(os.path.join(self.home, ".build"))
        program = os.path.join(self.home, ".build/issuer")
        shutil.copy(self.tally.program, program)
        with open(program, "rb") as data:
            record = {"program": hashlib.sha256(data.read()).hexdigest(), "sources": {}, "kit": "a trial"}
        self.write("usr/lib/issuer/.build/issuer.proved", json.dumps(record))
        for name, installed in COMMANDS.items():
            os.symlink(os.path.join(self.home, "deploy", name), os.path.join(self.bin, installed))
        os.symlink(os.path.join(self.home, "issuer"), os.path.join(self.bin, "issuer"))
        for name in ("systemctl", "journalctl"):
            os.symlink(os.path.join(HOME, "tests/stand_ins", name), os.path.join(self.bin, name))

    def write_orders(self) -> None:
        """Writes what the operator has: cards and template, one with a second key set, a PIN; and the configuration."""
        first = template()
        more = first | {"keys": [first["keys"][0], first["keys"][0] | {"dki": 2, "ac": KEYS[1], "smi": KEYS[2]}]}
        cards = "".join(f"{line}\n" for line in ("pan,psn,method", *CARDS))
        self.write("etc/issuer/cards.csv", cards)
        self.write("root/cards.before.csv", f"{cards}4000000000000036,00,1\n")
        self.write("etc/issuer/template.json", json.dumps(first))
        self.write("root/template.json", json.dumps(more))
        self.write("root/removed.json", json.dumps(more | {"keys": more["keys"][1:]}))
        whole = [
            {"pan": pan, "psn": psn, "method": int(method)} for pan, psn, method in (it.split(",") for it in CARDS)
        ]
        pins = first | {"cards": whole, "keys": [first["keys"][0] | {"smc": "5" * 32}]}
        self.write("root/pin/config", json.dumps(pins))
        self.write("root/pin/new", "4711\n")
        to = os.path.join(self.folder, "etc/issuer")
        words = ["--of", "1", "--cards", f"{to}/cards.csv", "--template", f"{to}/template.json", "--to", to]
        self.run("issuer-partition", *words)

    def configure(self) -> None:
        """Writes what the operator has, and the unit."""
        self.write_orders()
        config, journal = self.files
        self.run("issuer-run", "--begin", "show", "--config", config, "--journal", journal)
        listens = ["--listen", f"{self.listens}={DIALECT}", "--figures", str(self.port)]
        orders = f"{self.folder}/run/issuer-gateway/orders"
        runs = f"{self.folder}/run/issuer-runs"
        for path in (os.path.dirname(orders), runs):
            os.mkdir(path, mode=0o700)
        files = ["--config", config, "--journal", journal, "--orders", orders, "--last-run", f"{runs}/{{}}"]
        command = [f"{self.bin}/issuer-gateway", *files, *listens]
        self.write(f"units/{UNIT}.command", json.dumps(command))
        self.add_bridges(config, journal)

    def add_bridges(self, config: str, journal: str) -> None:
        """Writes the units of a partition's bridges. The second one has no host, and its pipe stays silent."""
        host = [f"{self.bin}/issuer-run", "serve", "--config", config, "--journal", journal, "--requests", "/dev/stdin"]
        bridge = [os.path.join(HOME, "tests/stand_ins/bridge_by_pipes"), journal, f"{self.folder}/run/issuer-0/orders"]
        os.mkdir(f"{self.folder}/run/issuer-0", mode=0o700)
        self.write("units/issuer@0.command", json.dumps([*bridge, *host]))
        os.mkfifo(f"{self.folder}/units/issuer@0.input", mode=0o600)
        self.write("units/issuer-standby@0.command", json.dumps(["sh", "-c", "echo no port yet; exec sleep 1000"]))

    def run(self, name: str, *words: str) -> None:
        ran = subprocess.run(
            [os.path.join(self.bin, name), *words], env=self.environment(), capture_output=True, text=True, check=False
        )
        self.tally.holds(ran.returncode == 0, f"{name}: {ran.returncode}, {ran.stderr!r}")

    def write(self, path: str, text: str) -> None:
        with open(os.path.join(self.folder, path), "w", encoding="utf-8") as to:
            to.write(text)

    def environment(self) -> dict[str, str]:
        path = f"{self.bin}:{os.path.dirname(sys.executable)}:{os.environ['PATH']}"
        units, room = f"{self.folder}/units", f"{self.folder}/tmp"
        return dict(os.environ) | {"PATH": path, "RUNBOOK_FOLDER": units, "TMPDIR": room, "ISSUER_NEVER_BUILD": "1"}

    def here(self, text: str) -> str:
        """Returns a text with this folder's paths and port."""
        for path in FOLDERS:
            text = re.sub(rf"(?<![\w/]){path}\b", self.folder + path, text)
        return text.replace(f":{FIGURES}/", f":{self.port}/")
