"""Measures requests a second, and how long an answer takes, by lines in flight, partitions, callers and shards.

usage: deploy/scale [--requests N] [--program PATH] [--folder FOLDER]

First one host at a pipe, and then hosts behind a private broker on the loopback, with a bridge for each partition: over
journals in the folder (on the disk of the current one), and with each sync made to take a millisecond longer. All
requests are new decisions, N for each row (20,000). Beside it a row for what the disk bears: one writer that appends a
record and syncs it. The last column is processor time a request, of broker, bridges, hosts and publisher. It needs what
deploy/chaos needs, and a C compiler for the slow disk. It leaves out what isn't there.
"""
import argparse
import contextlib
import json
import os
import shutil
import subprocess
import tempfile
import time
from collections.abc import Mapping, Sequence
from typing import NamedTuple, Optional

from issuer_host.facts.partitions import partition_configuration, partition_journal, partition_of
from issuer_host.host import offline
from trials.bridges import private_broker
from trials.bridges.cards import distinct_lines, whole_configuration
from trials.bridges.farm import command_of, words_of_program
from trials.bridges.managed import children_of
from trials.bridges.one_host import OneHost
from trials.bridges.processors import group_of, seconds_of

CARDS = 1024
SLOW_SYNC = r"""
#define _GNU_SOURCE
#include <dlfcn.h>
#include <unistd.h>

int fsync(int file) {
    static int (*next)(int);
    if (!next) next = (int (*)(int))dlsym(RTLD_NEXT, "fsync");
    usleep(1000);
    return next(file);
}

int fdatasync(int file) {
    static int (*next)(int);
    if (!next) next = (int (*)(int))dlsym(RTLD_NEXT, "fdatasync");
    usleep(1000);
    return next(file);
}
"""
LIMIT_SECONDS = 15.0
DISK_SECONDS = 3.0
# Bytes of an ordinary record.
RECORD = 213
FIRST_LINES = 64
HEAD = (
    "| what | lines in flight | partitions | callers | shards | requests/s | p50, ms | p99, ms"
    " | processor ms a request |\n|---|---|---|---|---|---|---|---|---|"
)


class Row(NamedTuple):
    """What is measured together."""

    flight: int
    partitions: int
    callers: int
    shards: int


class Measured(NamedTuple):
    """How long each answer took, all of them together, and the processor time of each part."""

    taken: list[float]
    seconds: float
    processors: Sequence[float] = ()


class Disk(NamedTuple):
    """A disk, and the rows that are measured over it."""

    name: str
    environment: Mapping[str, str]
    alone: Sequence[Row]
    behind: Sequence[Row]


ALONE = (Row(1, 1, 1, 1), Row(64, 1, 1, 1), Row(1024, 1, 1, 1), Row(1024, 1, 4, 16), Row(1024, 1, 16, 16))
ALONE_SLOW = (
    *(Row(1, 1, 1, 1), Row(64, 1, 1, 1), Row(64, 1, 4, 16)),
    *(Row(256, 1, 8, 16), Row(256, 1, 16, 16), Row(1024, 1, 16, 16)),
)
BEHIND = (
    *(Row(1, 1, 1, 1), Row(16, 1, 1, 1), Row(64, 1, 1, 1), Row(256, 1, 1, 1)),
    *(Row(64, 4, 1, 1), Row(256, 4, 1, 1), Row(1024, 4, 1, 1)),
)
BEHIND_SLOW = (Row(1, 1, 1, 1), Row(64, 1, 1, 1), Row(256, 1, 16, 16), Row(256, 4, 1, 1), Row(1024, 4, 16, 16))


class Options(NamedTuple):
    """The words of the command."""

    requests: int
    program: Optional[str]
    folder: str


def options_of(words: Sequence[str]) -> Options:
    parser = argparse.ArgumentParser(usage=__doc__)
    parser.add_argument("--requests", type=int, default=20_000)
    parser.add_argument("--program", type=lambda path: os.path.abspath(path))
    parser.add_argument("--folder", default=".", type=lambda path: os.path.abspath(path))
    return Options(**vars(parser.parse_args(words)))


def slow_library(folder: str) -> Optional[str]:
    """Returns a library that makes each sync a millisecond longer, or None if there is no C compiler."""
    if not shutil.which("cc"):
        print("left out: a slow disk, for want of a C compiler")
        return None
    source = os.path.join(folder, "slow.c")
    library = os.path.join(folder, "slow.so")
    with open(source, "w", encoding="utf-8") as text:
        text.write(SLOW_SYNC)
    subprocess.run(["cc", "-O1", "-shared", "-fPIC", "-o", library, source, "-ldl"], check=True)
    return library


def disks_of(library: Optional[str]) -> list[Disk]:
    found = [Disk("disk as it is", {}, ALONE, BEHIND)]
    if library:
        found.append(Disk("sync of 1 ms more", {"LD_PRELOAD": library}, ALONE_SLOW, BEHIND_SLOW))
    return found


def write_configurations(folder: str, shards: int, partitions: int) -> None:
    """Writes configurations of all cards, cut as deploy/partition cuts them."""
    whole = whole_configuration(CARDS, shards)
    cards = whole.pop("cards")
    for number in range(partitions):
        own = [card for card in cards if partition_of(card["pan"], partitions) == number]
        with open(partition_configuration(folder, number), "w", encoding="utf-8") as text:
            json.dump(whole | {"cards": own}, text)


def print_row(kind: str, row: Optional[Row], measured: Measured) -> None:
    taken = sorted(measured.taken)
    count = len(taken)
    middle = 1000 * taken[count // 2]
    late = 1000 * taken[count * 99 // 100]
    each = ", ".join(f"{1000 * seconds / count:.2f}" for seconds in measured.processors)
    columns = [f"{number:,}" for number in row] if row else ["1", "", "", ""]
    rate = f"{count / measured.seconds:,.0f}"
    print(f"| {' | '.join([kind, *columns, rate, f'{middle:.2f}', f'{late:.2f}', each])} |", flush=True)


def alone(options: Options, room: str, lines: Sequence[str], row: Row, disk: Disk) -> Measured:
    """Measures a host at a pipe, with so many lines in flight."""
    with tempfile.TemporaryDirectory(dir=room) as folder:
        write_configurations(folder, row.shards, 1)
        config = partition_configuration(folder, 0)
        journal = os.path.join(folder, "journal")
        offline.show(config, journal, options.program, begins=True)
        command = [command_of("issuer-run"), *words_of_program(options.program), "serve", "--config", config]
        command += ["--requests", "/dev/stdin", "--journal", journal, "--callers", str(row.callers)]
        taken, seconds = OneHost(command, lines, disk.environment, LIMIT_SECONDS).measure(row.flight)
    return Measured(taken, seconds)


def start_bridges(
    options: Options, folder: str, row: Row, url_file: str, environment: Mapping[str, str]
) -> "list[subprocess.Popen[bytes]]":
    """Begins the journals of all partitions, and starts a bridge for each."""
    found = []
    for number in range(row.partitions):
        config = partition_configuration(folder, number)
        journal = partition_journal(folder, number)
        os.makedirs(os.path.dirname(journal))
        offline.show(config, journal, options.program, begins=True)
        words = ["--partition", str(number), "--config", config, "--journal", journal, "--broker-file", url_file]
        words += ["--callers", str(row.callers), "--window", str(max(FIRST_LINES, row.flight))]
        command = [command_of("bridge"), *words, *words_of_program(options.program)]
        found.append(subprocess.Popen(command, stderr=subprocess.DEVNULL, env={**os.environ, **environment}))
    return found


def processors_of(broker: private_broker.PrivateBroker, bridges: "Sequence[subprocess.Popen[bytes]]") -> list[float]:
    """Returns processor time so far: of the broker, the bridges, their hosts, and this publisher."""
    assert broker.process is not None
    bridge_ids = [bridge.pid for bridge in bridges]
    hosts = [host for bridge in bridge_ids for host in children_of(bridge)]
    times = os.times()
    groups = (group_of(broker.process.pid), bridge_ids, hosts)
    return [*(sum(map(seconds_of, group)) for group in groups), times.user + times.system]


def behind(options: Options, room: str, lines: Sequence[str], row: Row, disk: Disk) -> Measured:
    """Measures hosts behind a broker, with so many lines in flight over all partitions."""
    with contextlib.ExitStack() as ends:
        folder = ends.enter_context(tempfile.TemporaryDirectory(dir=room))
        write_configurations(folder, row.shards, row.partitions)
        broker = private_broker.PrivateBroker(os.path.join(folder, "broker"))
        ends.callback(broker.end)
        broker.start()
        broker.wait()
        words = ["--partitions", str(row.partitions), "--broker-file", broker.url_file]
        subprocess.run([command_of("queues"), *words], stdout=subprocess.DEVNULL, check=True)
        bridges = start_bridges(options, folder, row, broker.url_file, disk.environment)
        for bridge in bridges:
            ends.callback(bridge.wait)
        for bridge in bridges:
            ends.callback(bridge.terminate)
        measured = measure_behind(broker, bridges, lines, row)
    return measured


def measure_behind(
    broker: private_broker.PrivateBroker,
    bridges: "Sequence[subprocess.Popen[bytes]]",
    lines: Sequence[str],
    row: Row,
) -> Measured:
    from issuer_host.broker.publisher import Asker, PublishedRequest

    taken: list[float] = []

    def answered(question: PublishedRequest, _: str) -> None:
        taken.append(time.monotonic() - question.began)

    with Asker(row.partitions, broker.url_file, row.flight, on_answer=answered) as asker:
        for _ in asker.ask_all(lines[:FIRST_LINES]):
            pass
        taken.clear()
        start = time.monotonic()
        before = processors_of(broker, bridges)
        limited = (line for line in lines[FIRST_LINES:] if time.monotonic() - start < LIMIT_SECONDS)
        for _ in asker.ask_all(limited):
            pass
        spent = [after - first for after, first in zip(processors_of(broker, bridges), before)]
        return Measured(list(taken), time.monotonic() - start, spent)


def disk_alone(room: str) -> Measured:
    """Measures what the disk bears: each append and sync."""
    taken = []
    with open(os.path.join(room, "disk"), "ab", buffering=0) as to:
        start = time.monotonic()
        while time.monotonic() - start < DISK_SECONDS:
            began = time.monotonic()
            to.write(b"x" * RECORD)
            os.fsync(to.fileno())
            taken.append(time.monotonic() - began)
        return Measured(taken, time.monotonic() - start)


def main(words: Sequence[str]) -> int:
    options = options_of(words)
    os.umask(0o077)
    lines = distinct_lines(CARDS, options.requests)
    with tempfile.TemporaryDirectory(dir=options.folder, prefix="issuer-scale-") as room:
        disks = disks_of(slow_library(room))
        print(HEAD)
        print_row("append and sync alone", None, disk_alone(room))
        for disk in disks:
            for row in disk.alone:
                print_row(f"one host at a pipe, {disk.name}", row, alone(options, room, lines, row, disk))
        why = private_broker.why_absent()
        if why:
            print(f"left out: hosts behind a broker: {why}")
            return 0
        for disk in disks:
            for row in disk.behind:
                print_row(f"behind a broker, {disk.name}", row, behind(options, room, lines, row, disk))
    return 0
