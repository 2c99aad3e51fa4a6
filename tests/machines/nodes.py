"""Machines with a node each (`deploy/node`), which tests start, stop, kill and ask, behind one broker."""
import contextlib
import json
import os
import re
import shutil
import signal
import socket
import subprocess
import time
import urllib.request
from collections.abc import Callable, Iterator, Sequence
from typing import Any, NamedTuple, Optional

import pika

from issuer_host.broker import topology
from issuer_host.broker.publisher import Asker, Unanswered
from issuer_host.broker.wire import decode_no_headers
from issuer_host.facts.answers import RECORDED
from issuer_host.facts.journals import StatusSet, journal_path, record_of, records_of
from issuer_host.facts.partitions import partition_configuration, partition_journal
from issuer_host.facts.paths import HOME, RULE
from issuer_host.orders.intent_log import Begun, WorkFile
from issuer_host.replication.message_mac import MessageMacs
from issuer_host.replication.messages import Barrier, LOGS, MessageFault, Record
from issuer_host.replication.notes import read_notes, work_of
from machines.message_texts import Message, message_of
from machines.rule_model import Count
from machines.wrong_rules import wrong_program
from trials.bridges.cards import distinct_lines, whole_configuration, with_account_row
from trials.bridges.private_broker import PrivateBroker, free_port

NODE = os.path.join(HOME, "deploy/node")
QUEUES = os.path.join(HOME, "deploy/queues")
STATE = re.compile(
    r"^node: partition (\d+): (?:error|warning|notice): (away|reading|waiting|beginning|serving|stopped)", re.MULTILINE
)
CARDS, SHARDS = 8, 2
SECONDS = 60.0
LOOK_SECONDS = 0.05
TRIES = 5
# The key that the nodes of all rooms share.
KEY = bytes(range(32))


class Machine:
    """One machine: its NODE.json, its journals, and its node."""

    def __init__(
        self, room: str, name: str, url_file: str, program: str, partitions: Sequence[int], callers: int = 1
    ) -> None:
        self.room = os.path.join(room, name)
        self.name = name
        self.callers = callers
        self.partitions = partitions
        self.process: "Optional[subprocess.Popen[bytes]]" = None
        # Where the log of the node begins that runs, and what its command stands behind.
        self.begun = 0
        self.before: Sequence[str] = ()
        os.makedirs(self.room)
        self.log = os.path.join(self.room, "log")
        self.file = os.path.join(self.room, "node.json")
        self.key_file = os.path.join(self.room, "cluster-key")
        self.put_keys(KEY)
        told = {
            "machine": name,
            "broker_file": url_file,
            "cluster_key_file": self.key_file,
            "program": program,
            "figures": 0,
        }
        self.write({**told, "partitions": [self.partition(number) for number in partitions]})

    def put_keys(self, *keys: bytes) -> None:
        """Writes the keys of the cluster, the one that signs first."""
        with open(os.open(self.key_file, os.O_CREAT | os.O_TRUNC | os.O_WRONLY, 0o600), "w", encoding="ascii") as text:
            text.writelines(f"{key.hex()}\n" for key in keys)

    def write(self, told: dict[str, Any]) -> None:
        with open(self.file, "w", encoding="utf-8") as text:
            json.dump(told, text)

    def told(self) -> dict[str, Any]:
        """Returns what NODE.json says."""
        with open(self.file, encoding="utf-8") as text:
            found: dict[str, Any] = json.load(text)
            return found

    def partition(self, number: int) -> dict[str, Any]:
        """Returns what NODE.json says of a partition, and writes its configuration."""
        journal = self.journal(number)
        os.makedirs(os.path.dirname(journal), exist_ok=True)
        files = {"configuration": self.configure(number), "journal": journal, "orders": self.socket(number)}
        return {"number": number, "callers": self.callers, **files}

    def configure(self, number: int, cards: int = CARDS) -> str:
        """Writes a partition's configuration, and returns its path."""
        config = partition_configuration(self.room, number)
        found = whole_configuration(cards, SHARDS)
        with open(os.open(config, os.O_CREAT | os.O_TRUNC | os.O_WRONLY, 0o600), "w", encoding="utf-8") as text:
            json.dump({**found, "table": with_account_row(found["table"])}, text)
        return config

    @property
    def program(self) -> str:
        return os.path.join(self.room, "program")

    def put_program(self, *words: str) -> None:
        """Puts a program of this machine's own in place, which does what the words say."""
        new = f"{self.program}.new"
        with open(os.open(new, os.O_CREAT | os.O_WRONLY, 0o700), "w", encoding="utf-8") as text:
            text.write(f"#!/bin/sh\n{' '.join(words)}\n")
        os.replace(new, self.program)

    def journal(self, number: int) -> str:
        return partition_journal(self.room, number)

    def socket(self, number: int) -> str:
        return os.path.join(self.room, f"orders-{number}")

    def run(self, *words: str) -> None:
        """Runs the node's command for something else than its partitions."""
        done = subprocess.run([NODE, *words], capture_output=True, text=True, check=False)
        if done.returncode:
            raise RuntimeError(done.stderr)

    def start(self, wrong: str = "") -> None:
        """Starts the node; with a program that decides by a wrong rule, if one is named.

        One that still runs is killed before.
        """
        if self.runs():
            self.kill()
        if wrong:
            self.write({**self.told(), "rule": wrong_program(self.room, wrong)})
        command = [*self.before, NODE, self.file]
        with open(self.log, "ab") as log:
            self.begun = log.tell()
            self.process = subprocess.Popen(command, stdin=subprocess.DEVNULL, stderr=log, start_new_session=True)

    def signal(self, number: int) -> None:
        assert self.process is not None
        with contextlib.suppress(ProcessLookupError):
            os.kill(self.process.pid, number)

    def signal_all(self, number: int) -> None:
        """Sends a signal to the node and its hosts."""
        assert self.process is not None
        with contextlib.suppress(ProcessLookupError):
            os.killpg(self.process.pid, number)

    def kill(self) -> None:
        """Kills the node with its hosts, as a machine that is switched off."""
        if self.process is not None:
            self.signal_all(signal.SIGKILL)
            self.process.wait()

    def stop(self) -> None:
        """Ends the node in order, as its unit is stopped: what its hosts recorded is sealed."""
        self.signal(signal.SIGTERM)
        self.ends()
        self.kill()

    def ends(self, seconds: float = SECONDS) -> Optional[int]:
        """Returns the status with which the node ends; None if it doesn't in time."""
        assert self.process is not None
        with contextlib.suppress(subprocess.TimeoutExpired):
            return self.process.wait(seconds)
        return None

    def stops(self, seconds: float = SECONDS) -> bool:
        """Whether the node stops all its partitions in time. One that stays, since it has figures, is ended then."""
        is_stopped = wait_until(self.has_stopped, seconds)
        self.kill()
        return is_stopped

    def has_stopped(self) -> bool:
        told = dict(STATE.findall(self.said()[self.begun :]))
        return all(told.get(str(number)) == "stopped" for number in self.told_numbers())

    def told_numbers(self) -> list[int]:
        """Returns the numbers of the partitions of NODE.json."""
        return [one["number"] for one in self.told()["partitions"]]

    def hosts(self) -> list[int]:
        """Returns the process ids of what the node runs over journals."""
        return [child for child in self.children() if b"--journal" in words_of_process(child)]

    def rules(self) -> list[int]:
        """Returns the process ids of the programs that decide for the node's partitions."""
        paths = {RULE.path.encode(), RULE.gate_path.encode()}
        return [child for child in self.children() if paths & set(words_of_process(child))]

    def children(self) -> list[int]:
        assert self.process is not None
        try:
            with open(f"/proc/{self.process.pid}/task/{self.process.pid}/children", encoding="ascii") as text:
                return [int(word) for word in text.read().split()]
        except FileNotFoundError:
            return []

    # What it says, and what it has

    def said(self) -> str:
        with open(self.log, encoding="utf-8", errors="replace") as text:
            return text.read()

    def state(self, number: int) -> str:
        """Returns the state that a partition told last; nothing if the node doesn't run."""
        if self.process is None or self.process.poll() is not None:
            return ""
        found = [state for partition, state in STATE.findall(self.said()[self.begun :]) if int(partition) == number]
        return str(found[-1]) if found else ""

    def records(self, number: int) -> list[list[str]]:
        """Returns the records of a partition's journals, and the notes."""
        found = []
        for shard in range(SHARDS):
            path = journal_path(self.journal(number), shard)
            found.append(list(records_of(path)) if os.path.getsize(path) else [])
        return found

    def notes(self, number: int) -> list[str]:
        return read_notes(self.journal(number))[1]

    def listen(self) -> None:
        """Gives the node a port for its figures, from its next start on."""
        self.write({**self.told(), "figures": free_port()})

    def page(self) -> str:
        """Returns the node's figures; nothing if it gives none."""
        url = f"http://127.0.0.1:{self.told()['figures']}/metrics"
        with contextlib.suppress(OSError), urllib.request.urlopen(url, timeout=SECONDS) as answer:
            text: str = answer.read().decode()
            return text
        return ""

    def figure(self, name: str, number: int) -> float:
        """Returns a figure of a partition; -1 if there is none."""
        found = re.search(rf'^{name}{{partition="{number}"}} ([0-9.]+)', self.page(), re.MULTILINE)
        return float(found[1]) if found else -1.0

    def runs(self) -> bool:
        return self.process is not None and self.process.poll() is None

    def begun_works(self, number: int) -> list[Begun]:
        """Returns the declines that were begun, by the notes of this machine, and that aren't ended."""
        known = WorkFile(self.journal(number), "bridge")
        for note in read_notes(self.journal(number))[1]:
            known.take(work_of(note))
        return known.declines()

    def position(self, number: int) -> dict[str, Any]:
        with open(f"{self.journal(number)}.position", encoding="utf-8") as text:
            found: dict[str, Any] = json.load(text)
            return found

    @contextlib.contextmanager
    def position_of_before(self, number: int) -> Iterator[None]:
        """Has a machine keep the position of now, as where no later one was written before its power went."""
        path = f"{self.journal(number)}.position"
        with open(path, "rb") as text:
            kept = text.read()
        yield
        with open(path, "wb") as text:
            text.write(kept)

    def barrier(self, number: int) -> int:
        """Returns the number of the last barrier that counts, once the position has it."""
        wait_until(lambda: self.position(number)["barrier"][0] > 0, 20)
        return int(self.position(number)["barrier"][0])


def words_of_process(process: int) -> list[bytes]:
    """Returns the words of a process; none if it has ended."""
    try:
        with open(f"/proc/{process}/cmdline", "rb") as text:
            return text.read().split(b"\0")
    except OSError:
        return []


class History(NamedTuple):
    """What counts in a stream."""

    records: list[list[str]]

    def has(self, answer: str) -> bool:
        """Whether the record that an answer names counts."""
        words = answer.split(" ")
        return words[0] not in RECORDED or int(words[2]) < len(self.records[int(words[1])])


class Room:
    """A folder with machines, and partitions of their own at the broker."""

    def __init__(
        self, folder: str, private: PrivateBroker, program: str, partitions: Sequence[int], callers: int = 1
    ) -> None:
        self.folder = folder
        self.callers = callers
        self.private = private
        self.program = program
        self.partitions = partitions
        # What the command of each node stands behind.
        self.before: Sequence[str] = ()
        self.machines: list[Machine] = []
        # The keys of those who read the streams here, the one that signs first.
        self.keys: Sequence[bytes] = (KEY,)
        # By partition all answers, and by request and partition what all its answers said.
        self.answers: dict[int, list[str]] = {}
        self.replies: dict[tuple[int, str], set[str]] = {}
        os.makedirs(folder)

    def begin(self, machines: int, wrong: str = "") -> None:
        self.declare()
        for number in range(machines):
            machine = self.machine(f"m{number + 1}")
            machine.listen()
            machine.run("--begin", machine.file)
            machine.start(wrong)
        is_served = wait_until(lambda: all(self.is_served(number) for number in self.partitions), 2 * SECONDS)
        if not is_served:
            raise RuntimeError("".join(machine.said() for machine in self.machines))

    def machine(self, name: str) -> Machine:
        found = Machine(self.folder, name, self.private.url_file, self.program, self.partitions, self.callers)
        found.before = self.before
        self.machines.append(found)
        return found

    def end(self) -> None:
        for machine in self.machines:
            machine.kill()

    def start_all(self) -> None:
        """Starts the nodes that don't run."""
        for machine in self.machines:
            if machine.process is None or machine.process.poll() is not None:
                machine.start()

    def is_served(self, number: int) -> bool:
        return any(machine.state(number) == "serving" for machine in self.machines)

    def serving(self, number: Optional[int] = None) -> Machine:
        """Returns the machine that serves a partition, the first one if none is named."""
        wanted = self.partitions[0] if number is None else number
        wait_until(lambda: self.is_served(wanted), SECONDS)
        return next(machine for machine in self.machines if machine.state(wanted) == "serving")

    def add(self, name: str, copies: Optional[Machine] = None, with_records_of: Optional[Machine] = None) -> Machine:
        """Adds a machine, with copies of another's journals, or with its records as journals of before."""
        found = self.machine(name)
        for number in self.partitions:
            if copies is not None:
                found.run("--copy", copies.journal(number), found.journal(number))
            elif with_records_of is not None:
                for shard in range(SHARDS):
                    paths = (journal_path(machine.journal(number), shard) for machine in (with_records_of, found))
                    shutil.copyfile(*paths)
        if copies is None:
            found.run("--begin", found.file)
        found.start()
        return found

    def twin(self, machine: Machine) -> Machine:
        """Starts a second node over a machine's journals."""
        found = self.machine("twin")
        partitions = [{**one, "orders": ""} for one in machine.told()["partitions"]]
        found.write({**machine.told(), "machine": "twin", "partitions": partitions})
        found.start()
        return found

    def start_alone(self, machine: Machine, number: int) -> bool:
        """Starts a machine's node with one partition. Returns whether it stops that."""
        told = machine.told()
        machine.write({**told, "partitions": [one for one in told["partitions"] if one["number"] == number]})
        machine.start()
        return machine.stops(30)

    def give(self, machine: Machine, cards: int) -> None:
        """Starts a machine's node again with a configuration of so many cards."""
        machine.kill()
        for number in self.partitions:
            machine.configure(number, cards)
        machine.start()

    def restart_with(self, machine: Machine, **more: object) -> None:
        """Starts a machine's node again with other members of NODE.json."""
        machine.kill()
        machine.write({**machine.told(), **more})
        machine.start()

    # The broker

    @contextlib.contextmanager
    def channel(self) -> Iterator[Any]:
        connection = pika.BlockingConnection(topology.parameters_of(self.private.url_file))
        try:
            yield connection.channel()
        finally:
            # (pika rejects what is on its way, which streams don't bear)
            with contextlib.suppress(pika.exceptions.AMQPError):
                connection.close()

    def declare(self) -> None:
        words = ["--partitions", str(max(self.partitions) + 1), "--streams", "--broker-file", self.private.url_file]
        for _ in range(TRIES):
            # (a broker on a busy machine may not answer in time)
            if subprocess.run([QUEUES, *words], stdout=subprocess.DEVNULL, check=False).returncode == 0:
                return
        raise RuntimeError("the queues can't be declared")

    def bind(self, number: int, is_bound: bool) -> None:
        """Lets what is written arrive at a partition's stream, or keeps it from it."""
        stream = topology.stream_of(number)
        with self.channel() as channel:
            (channel.queue_bind if is_bound else channel.queue_unbind)(stream, topology.RECORDS, stream)

    def macs(self, number: int) -> MessageMacs:
        return MessageMacs(topology.stream_of(number), self.keys)

    def write(self, number: int, text: str) -> None:
        """Writes a message to a partition's stream, as who has the cluster's key."""
        self.write_bytes(number, self.macs(number).signed(text))

    def write_bytes(self, number: int, body: bytes, headers: Optional[dict[str, Any]] = None) -> None:
        """Writes a message as it is to a partition's stream, with headers if there are some."""
        with self.channel() as channel:
            properties = pika.BasicProperties(headers=headers)
            channel.basic_publish(topology.RECORDS, topology.stream_of(number), body, properties)

    def write_all(self, number: int, bodies: Sequence[bytes]) -> None:
        """Writes many messages to a partition's stream."""
        with self.channel() as channel:
            for body in bodies:
                channel.basic_publish(topology.RECORDS, topology.stream_of(number), body)

    def machines_but(self, machine: Machine) -> list[Machine]:
        return [other for other in self.machines if other is not machine]

    def are_kept(self, number: int) -> bool:
        """Whether the positions of all machines name the stream's last message of a node, or a later one."""
        offsets = [offset for offset, message in self.placed(number)]
        return all(machine.position(number)["offset"] >= offsets[-2] for machine in self.machines)

    def last_barrier(self, number: int) -> Barrier:
        """Returns the last barrier that counts in a partition's stream."""
        count = Count()
        for message in self.messages(number):
            count.take(message)
        return count.barrier

    def are_equal(self, number: int) -> bool:
        """Whether all machines' journals come to what counts in a partition's stream."""
        history = self.history(number)
        return all(wait_until(lambda: one.records(number) == history.records, 30) for one in self.machines)

    def publish(self, number: int, lines: Sequence[str]) -> None:
        """Puts requests into a partition's queue whose answers nobody reads."""
        with self.channel() as channel:
            for place, line in enumerate(lines):
                properties = pika.BasicProperties(reply_to="issuer.reply.nobody", correlation_id=f"nobody{place}")
                channel.basic_publish(topology.REQUESTS, str(number), line.encode(), properties)

    def purge(self, number: int) -> None:
        """Takes what waits in a partition's queue out of it."""
        with self.channel() as channel:
            wait_until(lambda: channel.queue_purge(topology.queue_of(number)).method.message_count, 10)

    def make_anew(self, number: int) -> None:
        with self.channel() as channel:
            channel.queue_delete(topology.stream_of(number))
        self.declare()

    def lose_end(self, number: int, bodies: Sequence[bytes]) -> None:
        """Has a partition's stream be these messages, with which it began, as where it loses its end."""
        self.make_anew(number)
        self.write_all(number, bodies)

    def served_last(self, number: int) -> Machine:
        """Returns the machine that the last barrier names, by the positions of all."""
        _, _, name = max(machine.position(number)["barrier"] for machine in self.machines)
        return next(machine for machine in self.machines if machine.name == name)

    def begin_anew(self, number: int, chosen: Machine) -> None:
        """Begins a stream anew from a machine's journals, as docs/operate/nodes.md says."""
        self.make_anew(number)
        for machine in self.machines:
            os.remove(f"{machine.journal(number)}.position")
            if machine is not chosen:
                for name in os.listdir(os.path.dirname(machine.journal(number))):
                    os.remove(os.path.join(os.path.dirname(machine.journal(number)), name))
                journals = [f".{shard:02d}.v2" for shard in range(SHARDS)]
                for ending in (*(f"{ending}.seals" for ending in journals), *journals, ".work"):
                    shutil.copyfile(chosen.journal(number) + ending, machine.journal(number) + ending)
            machine.run("--begin", machine.file)
            machine.start()

    def bodies(self, number: int) -> list[tuple[bytes, bool]]:
        """Returns all messages of a partition's stream as they are, up to one that this writes, and who has headers."""
        end = self.macs(number).signed(f"mark end.{time.monotonic_ns()}\n")
        self.write_bytes(number, end)
        decode_no_headers()
        found = []
        with self.channel() as channel:
            channel.basic_qos(prefetch_count=100)
            words = {"arguments": {"x-stream-offset": "first"}, "inactivity_timeout": SECONDS}
            for method, properties, body in channel.consume(topology.stream_of(number), **words):
                assert method is not None, "the stream's end doesn't come"
                found.append((body, properties.has_headers))
                channel.basic_ack(method.delivery_tag)
                if body == end:
                    break
        return found

    def placed(self, number: int) -> list[tuple[int, Message]]:
        """Returns the messages of a partition's stream that a node wrote, each with its offset."""
        found = []
        for offset, (body, has_headers) in enumerate(self.bodies(number)):
            with contextlib.suppress(MessageFault):
                found.append((offset, message_of(self.macs(number), body, has_headers)))
        return found

    def messages(self, number: int) -> list[Message]:
        """Returns the messages of a partition's stream that a node wrote."""
        return [message for _, message in self.placed(number)]

    def history(self, number: int) -> History:
        """Returns what counts in a partition's stream."""
        count = Count()
        records: list[Record] = [record for message in self.messages(number) for record in count.take(message)]
        logs: list[list[str]] = [[] for _ in range(LOGS)]
        for record in records:
            logs[record.shard].append(record.text)
        return History(logs[:SHARDS])

    def is_read(self, machine: Machine, number: int) -> bool:
        """Whether a machine's position counts all records of the stream."""
        counts: list[int] = machine.position(number)["counts"]
        return counts[:SHARDS] == [len(log) for log in self.history(number).records]

    # Requests

    def ask(self, lines: Sequence[str], seconds: float = SECONDS, number: Optional[int] = None) -> list[str]:
        """Asks lines at a partition, and returns the answers in their order; an empty one if there is none."""
        wanted = self.partitions[0] if number is None else number
        found: dict[int, str] = {}
        asker = OnePartition(wanted, self.private.url_file, seconds)
        asker.on_answer = lambda question, text: found.update({question.number: text})
        with asker, contextlib.suppress(Unanswered):
            for _ in asker.ask_all(lines):
                pass
        for place, answer in found.items():
            self.answers.setdefault(wanted, []).append(answer)
            self.replies.setdefault((wanted, lines[place]), set()).add(answer.partition(" ")[2])
        return [found.get(place, "") for place in range(len(lines))]

    def kinds(self, lines: Sequence[str], number: Optional[int] = None) -> set[str]:
        """Asks lines, and returns the first words of the answers."""
        return {answer.split(" ")[0] for answer in self.ask(lines, SECONDS, number)}

    def repeats(self) -> list[str]:
        """Returns the requests that got two answers of another content."""
        return [line[:40] for (_, line), said in self.replies.items() if len(said) > 1]

    def statuses(self, number: int) -> dict[str, str]:
        """Returns the status that each card was given last, by the journals of the first machine."""
        records = (record_of(line) for log in self.machines[0].records(number) for line in log)
        return {record.pan: str(record.status) for record in records if isinstance(record, StatusSet)}


class OnePartition(Asker):
    """Asks at one partition, whatever the card."""

    def __init__(self, partition: int, broker_file: str, seconds: float) -> None:
        super().__init__(1, broker_file, seconds=seconds)
        self.number = partition

    def partition_of(self, line: str) -> int:
        return self.number


def order(machine: Machine, number: int, name: str, line: str) -> str:
    """Orders a line at a machine's node, again while nobody knows what became of it. Returns the reply."""
    wait_until(lambda: os.path.exists(machine.socket(number)))
    end = time.monotonic() + SECONDS
    while True:
        with socket.socket(socket.AF_UNIX) as peer:
            peer.settimeout(SECONDS)
            peer.connect(machine.socket(number))
            peer.sendall(f"order {name} {line}\n".encode())
            reply = peer.recv(4096).decode()
        if not reply.startswith("not known") or time.monotonic() > end:
            return reply
        time.sleep(LOOK_SECONDS)


def lines_of(count: int, cards: int = CARDS) -> list[str]:
    return distinct_lines(cards, count)


def wait_until(holds: Callable[[], object], seconds: float = SECONDS) -> bool:
    """Waits until a function returns something true."""
    end = time.monotonic() + seconds
    while time.monotonic() < end:
        if holds():
            return True
        time.sleep(LOOK_SECONDS)
    return False
