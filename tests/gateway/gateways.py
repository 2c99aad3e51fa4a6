"""What the tests of the gateway share: an issuer of many cards, a gateway that is started and ended, peers."""
import asyncio
import json
import os
import re
import signal
import socket
import ssl
import subprocess
import sys
import threading
import time
from collections.abc import Iterator
from typing import Any, Optional

from checks import Tally
from issuer_host.facts import journals
from issuer_host.facts.paths import HOME

sys.path.append(os.path.join(HOME, "tools"))
from switch.cards import cards_of, request_of, verdict_of
from switch.link import Link, Place
from switch.messages import Codec, Message

DIALECTS = ("1987-ascii", "1993-packed")
CODECS = {name: Codec(name) for name in DIALECTS}
LISTENING = re.compile(r"gateway: notice: (.*) on 127\.0\.0\.1 port ([0-9]+)")
START_SECONDS, END_SECONDS = 180.0, 30.0
ZEROS = "0" * 10


# The statuses by which a request is declined that its account declines, and all requests of a card that is blocked.
ACCOUNT, BLOCKED = 1, 2


def configuration(cards: int, shards: int = 2) -> dict[str, Any]:
    """An issuer that approves up to 5000.00, and declines with 51 above; with 61 and 62 by a card's status."""
    keys = [
        {"dki": 1, "option": "A", "ac": "0123456789ABCDEFFEDCBA9876543210", "smi": "000102030405060708090A0B0C0D0E0F"}
    ]
    anything = {
        "tvr_mask": ZEROS,
        "tvr_value": ZEROS,
        "cvr_mask": ZEROS,
        "cvr_value": ZEROS,
        "least": 0,
        "status": None,
    }
    table = [
        anything | {"most": 999_999_999_999, "arc": arc, "approve": False, "csu": "00000000", "status": status}
        for status, arc in ((ACCOUNT, "3631"), (BLOCKED, "3632"))
    ]
    table += [
        anything | {"most": 500000, "arc": "3030", "approve": True, "csu": "00800000"},
        anything | {"most": 999_999_999_999, "arc": "3531", "approve": False, "csu": "00000000"},
    ]
    found = [{"pan": f"4{number:015d}", "psn": "00", "method": 1 + number % 2} for number in range(cards)]
    return {"shards": shards, "keys": keys, "cards": found, "table": table}


# The code of element 39 by which a request's account declines, in these tests; and the codes of that status's row.
ACCOUNT_SAYS = {"1987": "51", "1993": "151"}
DECLINED, DECLINED_ARC = {"1987": "61", "1993": "121"}, "3631"


def declining(name: str) -> str:
    """A shipped dialect in which element 39 of a request says that its account declines."""
    with open(os.path.join(HOME, "deploy/dialects", f"{name}.json"), encoding="utf-8") as text:
        dialect = json.load(text)
    return json.dumps(dialect | {"declines": {ACCOUNT_SAYS[dialect["edition"]]: ACCOUNT}})


def declined(codec: Codec, message: Message) -> Message:
    """The message of a request that its account declines."""
    return message | {39: ACCOUNT_SAYS[codec.edition]}


class Issuer:
    """Configurations and journals of one or more partitions in a folder, which the program has begun."""

    def __init__(self, folder: str, program: str, cards: int, partitions: int = 1, shards: int = 2) -> None:
        self.folder, self.program, self.partitions = folder, program, partitions
        self.all = os.path.join(folder, "all.json")
        whole = configuration(cards, shards)
        self.write("all.json", json.dumps(whole))
        if partitions == 1:
            self.write("0.json", json.dumps(whole))
        else:
            self.cut(whole)
        for number in range(partitions):
            os.makedirs(os.path.join(folder, str(number)), mode=0o700)
            words = ["show", "--config", f"{folder}/{number}.json", "--journal", f"{folder}/{number}/journal"]
            begin = [os.path.join(HOME, "deploy/issuer-run"), "--begin", "--program", program, *words]
            subprocess.run(begin, check=True, stdout=subprocess.DEVNULL)

    def write(self, name: str, text: str) -> str:
        path = os.path.join(self.folder, name)
        with open(os.open(path, os.O_WRONLY | os.O_CREAT | os.O_TRUNC, 0o600), "w", encoding="utf-8") as to:
            to.write(text)
        return path

    def cut(self, whole: dict[str, Any]) -> None:
        lines = [f"{it['pan']},{it['psn']},{it['method']}" for it in whole.pop("cards")]
        cards = self.write("cards.csv", "\n".join(["pan,psn,method", *lines]) + "\n")
        template = self.write("template", json.dumps(whole))
        words = ["--of", str(self.partitions), "--cards", cards, "--template", template, "--to", self.folder]
        command = [os.path.join(HOME, "deploy/partition"), *words, "--program", self.program]
        subprocess.run(command, check=True, stdout=subprocess.DEVNULL)

    def words(self) -> list[str]:
        """The gateway's arguments for these partitions."""
        files = ["--config", f"{self.folder}/{{}}.json", "--journal", f"{self.folder}/{{}}/journal"]
        return [*files, "--partitions", str(self.partitions), "--program", self.program]

    def records(self) -> list[journals.Record]:
        """All records of all partitions; a journal's torn last line is none."""
        found = []
        for number in range(self.partitions):
            name = f"{self.folder}/{number}/journal"
            for shard in journals.shards_of_files(name).journals:
                with open(journals.journal_path(name, shard), encoding="ascii") as text:
                    whole = text.read().split("\n")[1:-1]
                found += [journals.record_of(line) for line in whole]
        return found


class Gateway:
    """A gateway under test: one listener a dialect, all that it writes kept."""

    def __init__(
        self,
        issuer: Issuer,
        *words: str,
        hosts: Optional[list[str]] = None,
        codecs: Optional[dict[str, Codec]] = None,
    ) -> None:
        """`hosts` are the arguments that say where the hosts are, if they aren't the issuer's own.

        `codecs` are those of the dialects at which it listens, by name or by file.
        """
        self.codecs = CODECS if codecs is None else codecs
        self.command = [os.path.join(HOME, "deploy/gateway"), *(issuer.words() if hosts is None else hosts), *words]
        # The file of a dialect, where it isn't the shipped one.
        self.files: dict[str, str] = {}
        # (a gateway that is started again listens where the first one did)
        self.ports: dict[str, int] = {}
        self.listening: set[str] = set()
        self.said = ""
        self.process: Optional[subprocess.Popen[str]] = None

    def __enter__(self) -> "Gateway":
        self.start()
        return self

    def __exit__(self, *_: object) -> None:
        if self.process is not None and self.process.poll() is None:
            self.end()

    def start(self) -> None:
        places = (f"{self.ports.get(name, 0)}={self.files.get(name, name)}" for name in self.codecs)
        listen = [it for place in places for it in ("--listen", place)]
        self.process = subprocess.Popen([*self.command, *listen], stderr=subprocess.PIPE, text=True)
        self.listening = set()
        threading.Thread(target=self.read, args=(self.process,), daemon=True).start()
        until = time.monotonic() + START_SECONDS
        while len(self.listening) < len(self.codecs):
            if self.process.poll() is not None or time.monotonic() > until:
                self.process.kill()
                self.process.wait()
                raise RuntimeError(f"the gateway didn't start: {self.said}")
            time.sleep(0.01)

    def read(self, process: "subprocess.Popen[str]") -> None:
        assert process.stderr is not None
        for line in process.stderr:
            self.said += line
            found = LISTENING.search(line)
            if found and process is self.process:
                # (HTTP may be listened for too)
                for name in [it for it, codec in self.codecs.items() if codec.rules["name"] == found[1]]:
                    self.ports[name] = int(found[2])
                    self.listening.add(name)

    def place(self, dialect: str = DIALECTS[0]) -> Place:
        return Place("127.0.0.1", self.ports[dialect], self.codecs[dialect])

    def connect(self, dialect: str = DIALECTS[0], seconds: float = 30.0) -> socket.socket:
        return socket.create_connection(("127.0.0.1", self.ports[dialect]), seconds)

    def send(self, number: int) -> None:
        assert self.process is not None
        self.process.send_signal(number)

    def end(self, number: int = signal.SIGTERM) -> int:
        """Ends the gateway by a signal, and returns its status."""
        assert self.process is not None
        self.send(number)
        try:
            return self.process.wait(END_SECONDS)
        except subprocess.TimeoutExpired:
            self.process.kill()
            return self.process.wait()

    def hosts(self) -> list[int]:
        """The processes of the hosts: the gateway's children."""
        assert self.process is not None
        with open(f"/proc/{self.process.pid}/task/{self.process.pid}/children", encoding="ascii") as text:
            return [int(it) for it in text.read().split()]

    def memory(self) -> int:
        """Kilobytes of the process in memory."""
        assert self.process is not None
        with open(f"/proc/{self.process.pid}/status", encoding="ascii") as text:
            found = re.search(r"VmRSS:\s+([0-9]+)", text.read())
        assert found is not None
        return int(found[1])


class Taps:
    """Messages of an issuer's cards, each of a new transaction, in a dialect."""

    def __init__(self, issuer: Issuer) -> None:
        self.cards, self.number = cards_of(issuer.all), 0

    def next(self, dialect: str = DIALECTS[0], amount: int = 1250) -> tuple[Any, Message]:
        """The card, its open transaction's message."""
        return self.tap(CODECS[dialect], amount)

    def tap(self, codec: Codec, amount: int = 1250) -> tuple[Any, Message]:
        self.number += 1
        card = self.cards[self.number % len(self.cards)]
        request = card.tap(amount=bytes.fromhex(f"{amount:012d}"))
        return card, request_of(codec, request, self.number)


def frames_in(data: bytes, codec: Codec) -> Iterator[Message]:
    """The messages of whole frames."""
    while (size := codec.frame_size(data)) is not None and len(data) >= codec.width + size:
        yield codec.decode(data[codec.width : codec.width + size])
        data = data[codec.width + size :]


def receive(peer: socket.socket, codec: Codec) -> Optional[Message]:
    """The next message of a connection, or None at its end."""
    size = codec.frame_size(receive_bytes(peer, codec.width))
    body = receive_bytes(peer, size) if size is not None else b""
    return codec.decode(body) if body else None


def receive_bytes(peer: socket.socket, count: int) -> bytes:
    data = b""
    while len(data) < count:
        try:
            piece = peer.recv(count - len(data))
        except ConnectionResetError:
            return b""
        if not piece:
            return b""
        data += piece
    return data


def ask(peer: socket.socket, codec: Codec, message: Message) -> Optional[Message]:
    peer.sendall(codec.frame(message))
    return receive(peer, codec)


class GoodPeer:
    """A peer that asks one message after another while others do their worst; every one has to get its right answer."""

    def __init__(
        self,
        gateway: Gateway,
        issuer: Issuer,
        dialect: str = DIALECTS[0],
        context: Optional[ssl.SSLContext] = None,
    ) -> None:
        """It connects by TLS if it gets a context."""
        self.gateway, self.dialect, self.taps, self.context = gateway, dialect, Taps(issuer), context
        self.asked = self.right = 0
        self.slowest = 0.0
        self.wrong: list[str] = []
        self.is_ending = False
        self.thread = threading.Thread(target=lambda: asyncio.run(self.work()), daemon=True)

    def __enter__(self) -> "GoodPeer":
        self.thread.start()
        return self

    def __exit__(self, *_: object) -> None:
        self.is_ending = True
        self.thread.join(120)

    async def work(self) -> None:
        codec = CODECS[self.dialect]
        link = await Link.open(self.gateway.place(self.dialect), self.context)
        while not self.is_ending:
            card, message = self.taps.next(self.dialect)
            began = time.monotonic()
            self.asked += 1
            response = await link.ask(message, 60.0)
            self.slowest = max(self.slowest, time.monotonic() - began)
            if response is not None and 55 in response and verdict_of(card, codec, response).is_right:
                self.right += 1
            else:
                self.wrong.append(f"{message[11]} got {response}")
            await asyncio.sleep(0.002)
        await link.close()

    def check(self, tally: Tally, what: str) -> None:
        good = self.asked > 0 and self.right == self.asked
        tally.holds(good, f"{what}: a good peer got {self.right} right answers to {self.asked}: {self.wrong[:2]}")
