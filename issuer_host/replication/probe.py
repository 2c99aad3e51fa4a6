"""Finds out whether partitions answer: the host of each is asked a line of no form, which leaves no record.

usage: probe --socket PATH .. [--partition N ..] [--seconds S]
       probe --node-file NODE.json .. [--partition N ..] [--reach COMMAND] [--seconds S]

That a unit is active says that a process runs. An answer says that the host has loaded its journals and answers.

--socket     the sockets of orders of whoever may serve: a gateway's, or those of both bridges of a partition
--node-file  the file of this machine's node, or of all nodes that have sockets here
--partition  the partitions that are probed: without it those of the file; with --socket partition 0
--reach      a command that probes at the machine that serves, if that isn't here: in it {} stands for the machine's
             name, and it gets --partition: ssh {} issuer-probe --node-file /etc/issuer/node.json
--seconds    how long a partition that doesn't answer is asked again (30)

It prints a line for each partition. The status is 0 if all answered, and 1 otherwise.
"""
import argparse
import os
import shlex
import subprocess
import time
from collections.abc import Sequence
from typing import NamedTuple

from issuer_host.facts.refusal import Refusal, tell
from issuer_host.orders.client import connected
from issuer_host.orders.texts import ANSWERS, HOST, PROBE
from issuer_host.replication import node_file

NAME = "probe"
LOOK_SECONDS = 0.3
MACHINE = "{}"


class ProbeOptions(NamedTuple):
    """The words of the command."""

    socket: list[str]
    node_file: list[str]
    partition: list[int]
    reach: str
    seconds: float


def options_of(words: Sequence[str]) -> ProbeOptions:
    parser = argparse.ArgumentParser(usage=__doc__)
    which = parser.add_mutually_exclusive_group(required=True)
    which.add_argument("--socket", nargs="+", default=[])
    which.add_argument("--node-file", nargs="+", default=[])
    parser.add_argument("--partition", nargs="+", type=int, default=[])
    parser.add_argument("--reach", default="")
    parser.add_argument("--seconds", type=float, default=30.0)
    return ProbeOptions(**vars(parser.parse_args(words)))


class ProbedPartition(NamedTuple):
    """A partition that is probed: the sockets of whoever may serve it here."""

    number: int
    sockets: tuple[str, ...]


def partitions_of(options: ProbeOptions) -> list[ProbedPartition]:
    if options.socket:
        return [ProbedPartition(number, tuple(options.socket)) for number in options.partition or [0]]
    sockets: dict[int, list[str]] = {}
    for path in options.node_file:
        for one in node_file.read(path).partitions:
            sockets.setdefault(one.number, []).extend([one.orders] * bool(one.orders))
    missing = sorted(set(options.partition) - set(sockets))
    if missing:
        raise Refusal(f"the files have no partition {missing[0]}")
    return [ProbedPartition(number, tuple(sockets[number])) for number in options.partition or sorted(sockets)]


def said_here(partition: ProbedPartition) -> tuple[bool, str, str]:
    """Asks whoever may serve a partition here. Returns whether it answered, what was said, and who serves elsewhere."""
    said, machine = "nobody listens at its socket: see that the unit runs, and that you are root or its user", ""
    for path in partition.sockets:
        taker = connected(path)
        if taker is None:
            continue
        reply = taker.ask(f"{PROBE} {partition.number}")
        if reply.startswith(f"{ANSWERS} "):
            return True, "answers", ""
        machine = taker.ask(HOST).partition(f"{HOST} 0 ")[2] or machine
        said = f"{reply or 'no reply'} at {path}"
    return False, said, machine


def reached(options: ProbeOptions, number: int, machine: str) -> tuple[bool, str]:
    """Probes at another machine."""
    words = [word.replace(MACHINE, machine) for word in shlex.split(options.reach)]
    ran = subprocess.run([*words, "--partition", str(number)], capture_output=True, text=True, check=False)
    said = (ran.stdout or ran.stderr).strip().splitlines()
    return ran.returncode == 0, f"{said[-1] if said else 'nothing was said'}, on {machine}"


def probe(partition: ProbedPartition, options: ProbeOptions) -> bool:
    """Probes a partition until it answers, or the time is over. Prints what came."""
    began = time.monotonic()
    while True:
        answered, said, machine = said_here(partition)
        if answered:
            print(f"partition {partition.number} {said}", flush=True)
            return True
        if machine and options.reach:
            answered, said = reached(options, partition.number, machine)
            if answered:
                print(said, flush=True)
                return True
        if time.monotonic() - began > options.seconds:
            tell(NAME, f"partition {partition.number} doesn't answer: {said}")
            return False
        time.sleep(LOOK_SECONDS)


def main(words: Sequence[str]) -> int:
    options = options_of(words)
    os.umask(0o077)
    try:
        found = [probe(partition, options) for partition in partitions_of(options)]
    except Refusal as refusal:
        tell(NAME, str(refusal))
        return 1
    except OSError as fault:
        tell(NAME, f"--reach: {fault.filename}: {fault.strerror}")
        return 1
    return 0 if all(found) else 1
