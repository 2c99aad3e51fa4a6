"""A bridge by pipes (`stand_ins/bridge_by_pipes`), which tests start, ask, kill and start again."""
import contextlib
import json
import os
import queue
import signal
import socket
import subprocess
import threading
import time
from collections.abc import Iterator, Sequence
from typing import Any, Optional

from issuer_host.facts.journals import Decided, Record, journal_path, record_of, records_of, shards_of_files
from issuer_host.facts.show_lines import ShownCard, cards_of
from runs import HOME

STAND_IN = os.path.join(HOME, "tests/stand_ins/bridge_by_pipes")
SECONDS = 60.0


class PipedBridge:
    """A partition in a folder, and its bridge."""

    def __init__(self, room: str, program: str, configuration: dict[str, Any], callers: int = 1) -> None:
        self.program = program
        self.callers = callers
        self.config = os.path.join(room, "config")
        self.journal = os.path.join(room, "journal")
        self.socket = os.path.join(room, "orders")
        self.log = os.path.join(room, "log")
        with open(os.open(self.config, os.O_CREAT | os.O_WRONLY, 0o600), "w", encoding="utf-8") as text:
            json.dump(configuration, text)
        # The file that says which journals the last run had; none if it is empty.
        self.last_run = ""
        self.process: "Optional[subprocess.Popen[str]]" = None
        self.said: "queue.Queue[dict[str, Any]]" = queue.Queue()
        self.tag = 0
        # What was sent and not answered, by tag; and all answers, by the tag of the message.
        self.unanswered: dict[int, str] = {}
        self.answers: dict[int, str] = {}
        self.show("--begin")

    def careful(self, *words: str) -> list[str]:
        """Returns a command of the program, by issuer-run."""
        begin = [word for word in words if word == "--begin"]
        rest = [word for word in words if word != "--begin"]
        files = ["--config", self.config, "--journal", self.journal]
        start = os.path.join(HOME, "deploy/issuer-run")
        begin += ["--last-run", self.last_run] if self.last_run else []
        return [start, *begin, "--program", self.program, rest[0], *files, *rest[1:]]

    def show(self, *words: str) -> dict[tuple[str, str], ShownCard]:
        """Returns the cards of journals that no host serves."""
        done = subprocess.run(self.careful("show", *words), capture_output=True, text=True, check=False)
        if done.returncode:
            raise RuntimeError(done.stderr or done.stdout)
        return cards_of(done.stdout)

    def start(self, is_waited_for: bool = True, begin: Sequence[str] = ()) -> None:
        """Starts the bridge, by another command perhaps. What has no answer is sent to it again."""
        host = self.careful("serve", "--requests", "/dev/stdin", "--callers", str(self.callers))
        with open(self.log, "a", encoding="utf-8") as log:
            self.process = subprocess.Popen(
                [*begin, STAND_IN, self.journal, self.socket, *host],
                stdin=subprocess.PIPE,
                stdout=subprocess.PIPE,
                stderr=log,
                text=True,
                start_new_session=True,
            )
        self.said = queue.Queue()
        threading.Thread(target=self.listen, args=(self.process, self.said), daemon=True).start()
        if is_waited_for:
            assert self.heard().get("ready"), self.complaints()
        for tag, body in list(self.unanswered.items()):
            self.write(tag, body)

    @staticmethod
    def listen(process: "subprocess.Popen[str]", said: "queue.Queue[dict[str, Any]]") -> None:
        assert process.stdout is not None
        for line in process.stdout:
            if line.endswith("\n"):
                said.put(json.loads(line))

    def heard(self, seconds: float = SECONDS) -> dict[str, Any]:
        """Returns what the bridge says next, or nothing if it says nothing."""
        try:
            return self.said.get(timeout=seconds)
        except queue.Empty:
            return {}

    def complaints(self) -> str:
        with open(self.log, encoding="utf-8") as text:
            return text.read()

    def write(self, tag: int, body: str) -> None:
        assert self.process is not None and self.process.stdin is not None
        with contextlib.suppress(BrokenPipeError):
            self.process.stdin.write(json.dumps({"tag": tag, "body": body}) + "\n")
            self.process.stdin.flush()

    def send(self, body: str) -> int:
        """Sends a message, and returns its tag."""
        self.tag += 1
        self.unanswered[self.tag] = body
        self.write(self.tag, body)
        return self.tag

    def take(self, seconds: float = SECONDS) -> bool:
        """Takes an answer. Returns whether there was one."""
        said = self.heard(seconds)
        if "tag" in said:
            self.answers[said["tag"]] = said["answer"]
            self.unanswered.pop(said["tag"], None)
        return bool(said)

    def ask(self, bodies: Sequence[str]) -> list[str]:
        """Sends messages, and returns their answers."""
        tags = [self.send(body) for body in bodies]
        while any(tag in self.unanswered for tag in tags):
            if not self.take():
                break
        return [self.answers.get(tag, "") for tag in tags]

    def kill(self) -> None:
        """Kills the bridge, whose host ends with it."""
        assert self.process is not None
        os.kill(self.process.pid, signal.SIGKILL)
        self.end()

    def host(self) -> int:
        """Returns the process id of the host, or 0."""
        assert self.process is not None
        with open(f"/proc/{self.process.pid}/task/{self.process.pid}/children", encoding="ascii") as text:
            return int((text.read().split() or ["0"])[0])

    def end(self) -> None:
        """Ends the bridge, and waits until its host has let the journals go."""
        if self.process is None:
            return
        host = self.host() if self.process.poll() is None else 0
        assert self.process.stdin is not None
        with contextlib.suppress(BrokenPipeError):
            self.process.stdin.close()
        self.process.wait(SECONDS)
        while host and os.path.exists(f"/proc/{host}"):
            time.sleep(0.01)
        while self.take(0.2):
            pass
        self.process = None

    # Orders

    @contextlib.contextmanager
    def peer(self) -> "Iterator[Peer]":
        with socket.socket(socket.AF_UNIX, socket.SOCK_STREAM) as to:
            to.settimeout(SECONDS)
            to.connect(self.socket)
            yield Peer(to)

    def order(self, number: str, line: str) -> str:
        """Orders a line, and returns the reply."""
        with self.peer() as peer:
            return peer.ask(f"order {number} {line}")

    # What the journals say

    def records(self) -> list[Record]:
        """Returns all records, shard by shard."""
        shards = shards_of_files(self.journal).journals
        return [record_of(line) for shard in shards for line in records_of(journal_path(self.journal, shard))]

    def of_card(self, pan: str) -> list[Record]:
        return [record for record in self.records() if record.card[0] == pan]


class Peer:
    """A connection to a bridge's socket."""

    def __init__(self, to: socket.socket) -> None:
        self.to = to
        self.unread = b""

    def send(self, line: str) -> None:
        self.to.sendall(line.encode() + b"\n")

    def reply(self) -> str:
        """Returns the next line; none if the connection ended."""
        while b"\n" not in self.unread:
            piece = b""
            with contextlib.suppress(ConnectionResetError):
                piece = self.to.recv(4096)
            if not piece:
                return ""
            self.unread += piece
        line, _, self.unread = self.unread.partition(b"\n")
        return line.decode()

    def ask(self, line: str) -> str:
        self.send(line)
        return self.reply()


def decisions_of(records: Sequence[Record]) -> list[Decided]:
    return [record for record in records if isinstance(record, Decided)]
