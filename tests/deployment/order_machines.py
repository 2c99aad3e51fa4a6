"""Orders by the files of nodes (deploy/order --node-file): which machine takes a line, with nodes that stand in."""
import contextlib
import json
import os
import socket
import subprocess
import threading
from collections.abc import Iterator
from typing import Any

from checks import Tally, check_of
from deployment.running import Host, new_host
from issuer_host.facts.partitions import partition_of
from issuer_host.facts.paths import HOME
from runs import PANS, write_text

ORDER = os.path.join(HOME, "deploy/order")
LINE = f"S {PANS[0]} 00 1\n"
AWAY = "m2 serves the partition, and m1 doesn't: order at m2, or here in a moment"


class StandIn:
    """A node's socket of orders, which answers as one that serves or doesn't."""

    def __init__(self, path: str, serves: bool, other: str = "") -> None:
        self.path, self.serves, self.other = path, serves, other
        # After so many orders it serves; None for never.
        self.begins_after: "int | None" = None
        self.refuses = ""
        self.ordered: "list[str]" = []
        self.done: "dict[str, str]" = {}
        self.listening = socket.socket(socket.AF_UNIX)
        self.listening.bind(path)
        self.listening.listen()
        threading.Thread(target=self.run, daemon=True).start()

    def run(self) -> None:
        with contextlib.suppress(OSError):
            while True:
                peer, _ = self.listening.accept()
                threading.Thread(target=self.talk, args=(peer,), daemon=True).start()

    def talk(self, peer: socket.socket) -> None:
        with peer, peer.makefile("rw", encoding="ascii", newline="\n") as file, contextlib.suppress(OSError):
            for line in file:
                file.write(f"{self.reply(line.rstrip())}\n")
                file.flush()

    def reply(self, line: str) -> str:
        if line == "host":
            return "host 1" if self.serves else f"host 0 {self.other}".rstrip()
        _, number, text = line.split(" ", 2)
        self.ordered.append(f"{number} {text}")
        if self.refuses:
            return f"not done: {self.refuses}"
        if not self.serves:
            self.serves = self.begins_after is not None and len(self.ordered) >= self.begins_after
            return f"not done: {AWAY}"
        word = "before" if number in self.done else "done"
        return f"{word} {self.done.setdefault(number, f'set 0 {len(self.done)}')}"


@contextlib.contextmanager
def machines(host: Host, *serving: bool, other: str = "") -> "Iterator[list[StandIn]]":
    """Stand-ins of machines m1, m2 .. with two partitions, of which each has the socket of the card's partition."""
    number, found = partition_of(PANS[0], 2), []
    for at, serves in enumerate(serving, 1):
        stand_in = StandIn(f"{host.folder}/orders-{at}", serves, other)
        parts = [{"number": each, "configuration": "c", "journal": f"j{each}"} for each in range(2)]
        parts[number]["orders"] = stand_in.path
        told: "dict[str, Any]" = {"machine": f"m{at}", "broker_file": "b", "cluster_key_file": "k", "partitions": parts}
        write_text(host.folder, f"m{at}.json", json.dumps(told))
        found.append(stand_in)
    try:
        yield found
    finally:
        for stand_in in found:
            stand_in.listening.close()
            os.remove(stand_in.path)


def ordered(host: Host, *words: str, files: "tuple[str, ...]" = ("m1",), lines: str = LINE) -> "tuple[int, str, str]":
    """Orders a line by the files of machines, as n."""
    paths = [f"{host.folder}/{file}.json" for file in files]
    command = [ORDER, "--node-file", *paths, "--number", "n", *words]
    ran = subprocess.run(command, input=lines, capture_output=True, text=True, check=False, timeout=60)
    return ran.returncode, ran.stdout, ran.stderr


def orders_where_a_partition_is_served(tally: Tally) -> None:
    """Of several nodes the one that serves gets each line, once; its number is of the whole order."""
    with new_host(tally) as host, machines(host, False, True) as (first, second):
        lines = LINE + LINE
        tally.expect(ordered(host, files=("m1", "m2"), lines=lines), (0, "set 0 0\nset 0 1\n", ""), "two lines")
        tally.expect((first.ordered, len(second.ordered)), ([], 2), "what each was given")
        status, wrote, said = ordered(host, files=("m1", "m2"), lines=lines)
        tally.expect((status, wrote), (0, "set 0 0\nset 0 1\n"), "the same order again")
        tally.expect(said, "order: lines 1, 2 were done before, by the same number\n", "what it says")
        second.refuses = "n/1 was another line's number"
        status, _, said = ordered(host, files=("m1", "m2"))
        tally.expect((status, said), (1, f"order: line 1: not done: {second.refuses}\n"), "what is refused")


def waits_until_a_machine_serves(tally: Tally) -> None:
    """While no machine serves, an order wakes who is next, and is given again until one does."""
    with new_host(tally) as host, machines(host, False) as (only,):
        only.begins_after = 2
        tally.expect(ordered(host), (0, "set 0 0\n", ""), "an order where nobody serves at first")
        tally.expect(len(only.ordered), 3, "how often it was given")


def names_the_machine_that_serves(tally: Tally) -> None:
    """Without a way to the machine that serves, the command names it, and how to order there."""
    with new_host(tally) as host, machines(host, False, other="m2") as (only,):
        status, wrote, said = ordered(host)
        tally.expect((status, wrote), (1, ""), "an order at another machine")
        number = partition_of(PANS[0], 2)
        wanted = f"order: line 1: m2 serves partition {number}: there, or here with --reach, give the same order with"
        tally.expect(said, f"{wanted} --number n: no line is put twice\n", "what it says")
        tally.holds(only.ordered, "the node that follows wasn't woken")


def reaches_the_machine_that_serves(tally: Tally) -> None:
    """A command reaches the machine that serves, which puts the line by the number that it has in its order."""
    with new_host(tally) as host, machines(host, False, True, other="m2") as (first, second):
        reach = f"{ORDER} --node-file {host.folder}/{{}}.json"
        other = PANS[0]
        lines = f"{LINE}S {other} 00 2\n"
        tally.expect(ordered(host, "--reach", reach, lines=lines), (0, "set 0 0\nset 0 1\n", ""), "an order by m1")
        wanted = [f"n/1 {LINE.rstrip()}", f"n/2 S {other} 00 2"]
        tally.expect((first.ordered, second.ordered), ([], wanted), "what each was given")
        status, wrote, _ = ordered(host, files=("m2",), lines=lines)
        tally.expect((status, wrote), (0, "set 0 0\nset 0 1\n"), "the same order at m2: nothing is put twice")
        tally.expect(len(second.done), 2, "lines that were put")
        second.refuses = "n/1 was another line's number"
        status, _, said = ordered(host, "--reach", reach)
        tally.expect((status, said), (1, f"order: line 1: not done: {second.refuses}\n"), "what m2 refuses")
        first.begins_after, second.refuses = len(first.ordered) + 1, ""
        second.serves = False
        tally.expect(ordered(host, "--reach", "/bin/false {}")[:2], (0, "set 0 0\n"), "m1 goes on where m2 is gone")
        first.serves = False
        status, _, said = ordered(host, "--reach", "/nowhere/ssh {}")
        tally.expect((status, said), (1, "order: --reach: /nowhere/ssh: No such file or directory\n"), "no command")


def refuses_files_that_name_no_partition(tally: Tally) -> None:
    """A file that lacks a partition, or words that don't go together, order nothing."""
    with new_host(tally) as host, machines(host, True) as (only,):
        parts = [{"number": 1, "configuration": "c", "journal": "j", "orders": only.path}]
        told = {"machine": "m1", "broker_file": "b", "cluster_key_file": "k", "partitions": parts}
        write_text(host.folder, "lacks.json", json.dumps(told))
        status, _, said = ordered(host, files=("lacks",))
        tally.holds(status == 1 and "the files lack a partition" in said, f"a file that lacks one: {said!r}")
        status, _, said = ordered(host, "--socket", only.path)
        tally.holds(status == 2 and "either --socket, or --node-file" in said, f"two ways: {said[-200:]!r}")
        tally.expect(only.ordered, [], "what was ordered")


CHECKS = [
    check_of(body)
    for body in (
        orders_where_a_partition_is_served,
        waits_until_a_machine_serves,
        names_the_machine_that_serves,
        reaches_the_machine_that_serves,
        refuses_files_that_name_no_partition,
    )
]
