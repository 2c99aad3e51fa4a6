"""Kills bridges, hosts and the broker while requests are answered, and holds answers and journals against each other.

usage: deploy/chaos [--short] [--requests N] [--seed S] [--program PATH] [--keep FOLDER] [--loud]
       deploy/chaos --machines ..     (the chaos of three machines; it has its own --help)

It starts a private broker on the loopback, four partitions and two bridges for each, and asks N requests (20,000; in
the short form 2,000), about a tenth of them again. About a tenth are declined by their accounts, and orders are given
meanwhile at the bridges' sockets, each until it is done. The bridges are those of an installed copy, and are managed as
the unit says. The second one of each partition finds the broker by a name with two addresses. In each round something
happens at a random moment:

- a bridge, a standby, a host, a host with its bridge or the broker is killed; a bridge is ended by SIGTERM
- a bridge or a host hangs
- the journals' disk is full for a while
- a publisher reads no answers, or publishes what no decoder likes
- a queue is deleted and declared again
- another version of the package is put in place, file by file
- an older journal is restored without its seals: both bridges have to refuse it, until the right one is put back
- a file beside the journals is damaged, removed, or a named pipe in its place
- the journals' disk goes away over an older copy: both bridges have to end, and none may go on over the copy

At the end:

- each request was answered, and all its answers are the same reply
- each request has exactly one record, at the index that its answers name, and no record is of another request
- each order has one record, which its answer names; each decline by an account is among its card's neighbours, and the
  card has the status of before
- each partition's journals load
- no bridge ended with a status after which the unit doesn't start it again

It needs rabbitmq-server, python3-pika and python3-cryptography, and the built program. What can't be tried here is left
out by name. The last line is `N passed, M failed`.
"""
import argparse
import collections
import importlib.util
import os
import random
import shutil
import signal
import subprocess
import sys
import tempfile
import threading
import time
from collections.abc import Sequence
from typing import NamedTuple, Optional

from issuer_host.facts.paths import PROGRAM
from issuer_host.facts.request_lines import pan_of_line
from trials.bridges import private_broker
from trials.bridges.cards import distinct_lines
from trials.bridges.comparing import check_all
from trials.bridges.farm import CARDS, DISK_BYTES, Farm, PARTITIONS, make_configurations
from trials.bridges.tally import Tally
from trials.bridges.work import Orders, by_request, check_work, some_declined

REPEATED = 0.1
# (a broker that is killed takes up to half a minute to begin on a busy machine)
ANSWER_SECONDS = 300
REQUESTS, SHORT_REQUESTS = 20_000, 2_000
REQUESTS_OF_ROUND = 230
# About so many requests are answered a second: an event happens within its round.
RATE = 2500
SHORT_EVENTS = (
    *("bridge", "host", "hostile", "both", "broker", "stop", "disk", "deaf", "term"),
    *("standby", "host", "queue", "bridge", "upgrade", "both", "hang", "bridge"),
)
MACHINES = "--machines"
PACKAGES = {"pika": "python3-pika", "cryptography": "python3-cryptography"}


class Options(NamedTuple):
    """The words of the command."""

    short: bool
    requests: int
    seed: int
    program: Optional[str]
    keep: Optional[str]
    loud: bool


class Asked(NamedTuple):
    """What came of all rounds: each line's answers, the longest silences by event, and counts of messages."""

    answers: dict[str, list[str]]
    silences: dict[str, list[float]]
    repeats: int
    published: int


def options_of(words: Sequence[str]) -> Options:
    parser = argparse.ArgumentParser(usage=__doc__)
    parser.add_argument("--short", action="store_true")
    parser.add_argument("--requests", type=int, default=0)
    parser.add_argument("--seed", type=int, default=1)
    parser.add_argument("--program", type=lambda path: os.path.abspath(path))
    parser.add_argument("--keep")
    parser.add_argument("--loud", action="store_true")
    options = Options(**vars(parser.parse_args(words)))
    return options._replace(requests=options.requests or (SHORT_REQUESTS if options.short else REQUESTS))


def order_of(lines: Sequence[str], dice: random.Random) -> list[str]:
    """Returns the order in which lines are asked, some again.

    A card's counters come in order here and there only, within the window.
    """
    order: list[str] = []
    for at in range(0, len(lines), 10 * CARDS):
        part = list(lines[at : at + 10 * CARDS])
        part += dice.sample(part, int(len(part) * REPEATED))
        dice.shuffle(part)
        order += part
    return order


def events_of(options: Options, dice: random.Random, is_disk: bool) -> list[str]:
    """Returns what happens in each round: in the long form each event once at least."""
    from trials.bridges.events import EVENTS

    if options.short:
        found = list(SHORT_EVENTS)
    else:
        rounds = max(options.requests // REQUESTS_OF_ROUND, len(EVENTS))
        weights = [event.weight for event in EVENTS.values()]
        found = [*EVENTS, *dice.choices(list(EVENTS), weights, k=rounds - len(EVENTS))]
        dice.shuffle(found)
    return [event for event in found if is_disk or event != "disk"]


def ask_in_rounds(farm: Farm, order: Sequence[str], events: Sequence[str], dice: random.Random) -> Asked:
    """Asks all lines, with an event in each round."""
    from issuer_host.broker.publisher import PublishedRequest
    from trials.bridges.events import happen
    from trials.bridges.patient import PatientAsker

    answers: dict[str, list[str]] = collections.defaultdict(list)
    silences: dict[str, list[float]] = collections.defaultdict(list)
    times: list[float] = []

    def answered(question: PublishedRequest, text: str) -> None:
        answers[question.line].append(text)
        times.append(time.monotonic())

    size = -(-len(order) // len(events))
    with PatientAsker(PARTITIONS, farm.broker.url_file, seconds=ANSWER_SECONDS, on_answer=answered) as asker:
        for number, event in enumerate(events):
            part = order[number * size : (number + 1) * size]
            times[:] = [time.monotonic()]
            wait = 0.0 if event == "disk" else dice.uniform(0.0, size / RATE)
            happening = threading.Timer(wait, happen, (farm, event, dice))
            happening.start()
            if event == "disk":
                # (it is full before the first line of the round)
                farm.is_full.wait()
            for _ in asker.ask_all(part):
                pass
            happening.join()
            silences[event].append(max((after - before for before, after in zip(times, times[1:])), default=0.0))
        return Asked(answers, silences, asker.repeats, asker.published)


def mounted_disk(room: str) -> Optional[str]:
    """Returns a small disk for the first partition, if one can be mounted."""
    disk = os.path.join(room, "0")
    os.makedirs(disk)
    command = ["mount", "-t", "tmpfs", "-o", f"size={DISK_BYTES},mode=0700", "tmpfs", disk]
    done = subprocess.run(command, capture_output=True, text=True, check=False)
    if done.returncode:
        print(f"left out: a full disk, for which a small one has to be mounted: {done.stderr.strip()}")
        return None
    return disk


def why_left_out(program: Optional[str]) -> Optional[str]:
    if why := private_broker.why_absent():
        return why
    for name, package in PACKAGES.items():
        if importlib.util.find_spec(name) is None:
            return f"{package} isn't installed"
    return None if os.access(program or PROGRAM, os.X_OK) else "no program is built: ./issuer prove"


def report(farm: Farm, lines: int, order: int, asked: Asked, seconds: float) -> None:
    """Prints what happened, and how long nobody was answered."""
    ends = ", ".join(f"{count} with {status}" for status, count in sorted(farm.ends().items(), key=str))
    answered = sum(map(len, asked.answers.values()))
    counts = f"{asked.published} published, {answered} answered, {asked.repeats} answers dropped as repeats"
    print(f"{lines} requests, {order} asked, {counts}")
    print(f"{sum(map(len, asked.silences.values()))} events in {seconds:.0f} s; bridges ended: {ends}")
    for event, found in sorted(asked.silences.items()):
        middle = 1000 * sorted(found)[len(found) // 2]
        most = 1000 * max(found)
        silence = f"longest silence of a round {middle:6.0f} ms in the middle, {most:6.0f} ms at most"
        print(f"  {event:<8} {len(found):3} times, {silence}")
    left = sum(os.path.getsize(bridge.log) for bridge in farm.bridges)
    print(f"the bridges wrote {left} bytes of messages")


def play(options: Options, room: str, tally: Tally) -> None:
    dice = random.Random(options.seed)
    disk = mounted_disk(room)
    farm = None
    try:
        farm = Farm(room, options.program, disk, options.loud)
        make_configurations(room, options.program)
        lines = distinct_lines(CARDS, options.requests)
        messages = some_declined(lines, dice)
        order = order_of(messages, dice)
        orders = Orders(farm, sorted({pan_of_line(line) for line in lines}), options.seed)
        farm.begin()
        began = time.monotonic()
        orders.begin()
        asked = ask_in_rounds(farm, order, events_of(options, dice, disk is not None), dice)
        orders.end()
        seconds = time.monotonic() - began
        farm.end()
        check_all(tally, farm, lines, by_request(asked.answers))
        check_work(tally, farm, messages, orders)
        for bridge in farm.bridges:
            tally.check(
                not bridge.is_down, f"a bridge of partition {bridge.partition} stayed down: {dict(bridge.ends)}"
            )
        tally.check(not farm.faults, f"these didn't happen: {farm.faults}")
        report(farm, len(lines), len(order), asked, seconds)
        print(f"{len(messages) - len(set(messages) & set(lines))} declined by accounts, {len(orders.done)} orders")
    finally:
        clear(options, room, farm, disk)


def clear(options: Options, room: str, farm: Optional[Farm], disk: Optional[str]) -> None:
    """Ends what runs, and keeps the files if that was asked for."""
    if farm:
        farm.end()
    try:
        if options.keep:
            # (sockets can't be copied)
            ignored = shutil.ignore_patterns("notify-*", "orders-*", ".erlang.cookie")
            shutil.copytree(room, options.keep, dirs_exist_ok=True, ignore=ignored)
    finally:
        if farm:
            farm.broker.end()
        if disk:
            subprocess.run(["umount", disk], check=False)


def main(words: Sequence[str]) -> int:
    if MACHINES in words:
        from trials.machines.chaos import main as main_of_machines

        return main_of_machines([word for word in words if word != MACHINES])
    options = options_of(words)
    signal.signal(signal.SIGTERM, lambda *_: sys.exit(1))
    tally = Tally()
    why = why_left_out(options.program)
    if why:
        print(f"left out: {why}")
    else:
        os.umask(0o077)
        with tempfile.TemporaryDirectory(prefix="issuer-chaos-") as room:
            play(options, room, tally)
    print(f"{tally.passed} passed, {tally.failed} failed")
    return 1 if tally.failed else 0
