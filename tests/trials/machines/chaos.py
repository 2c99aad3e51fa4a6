"""Kills, cuts and stops machines while requests are answered, and holds answers, streams and journals together.

usage: deploy/chaos --machines [--short] [--requests N] [--seed S] [--tick SECONDS] [--events NAME,..]
                               [--program PATH] [--keep FOLDER] [--loud]

It makes three machines as namespaces of the network, with a node of a RabbitMQ cluster and a node of eight partitions
on each, and asks N requests (20,000; in the short form 1,000). About a tenth are asked again, a hundredth again with
another amount, and a tenth are declined by their accounts; orders are given meanwhile. In each round something happens
to a machine that serves a partition:

- it loses its power without a word, or is killed with all its connections; so do two, one after another, and all three
- its disk is lost, and it begins from copies of another's journals; or its broker's data too, and `deploy/replace`
  replaces it, which is killed in the middle and run again
- it is cut off: its packets are lost, its interface is down, it hears one of the two others, its link blinks
- all that it sends is lost, or all that is sent to it; its link loses a fifth of all packets, or is slow
- its broker hangs, and `deploy/rejoin` kills it; its broker has no disk left by its limit, for a while
- all brokers are started again, one after another, once `deploy/queues --await-whole` says that all copies answer
- all that runs on it stands still for 30 s, or its node alone
- its node, a host, its broker, or the broker that leads a stream is killed; its node is ended
- the disk of its journals is full; its clock is set
- a deposed bridge writes a barrier of an old number, and records that come too late
- somebody without the cluster's key writes malformed and forged messages to a stream
- a journal, or all of them with their position, is restored without seals: its node has to stop the partition
- a file beside the journals is damaged, removed, or a named pipe in its place
- a partition's disk goes away over an older copy, or over nothing: no node may go on over the copy

Where a node stops a partition over its files, they are put right as docs/operate/nodes.md says: by copies of
another's journals.

--events has these happen alone, in their order: `events.py` has their names. Where nothing moves for a minute and a
half, it says what it waits for, and what that lacks; with --loud it says each wait of its end where that begins.

At the end:

- each request was answered, all its answers are the same reply, and it has one record; a changed one was refused
- the record of each reply counts in its partition's stream, which is read whole, by the rule alone
- all nodes are killed at once: each machine's journals are prefixes of what counts, but for what was in flight; begun
  again, all of them come to what counts
- orders and declines are as `deploy/chaos` has them
- no node ended with a status after which it isn't started again
- it is three of three again, without a person: brokers, copies of queues and streams, and machines in each line

It needs root, iproute2, rabbitmq-server, python3-pika, python3-cryptography and the built program. What can't be tried
here is left out by name. The last line is `N passed, M failed`.
"""
import argparse
import collections
import os
import random
import shutil
import signal
import sys
import tempfile
import threading
import time
from collections.abc import Mapping, Sequence
from typing import TYPE_CHECKING, NamedTuple, Optional

from issuer_host.facts.answers import reply_of
from issuer_host.facts.request_lines import pan_of_line
from trials.bridges.cards import changed_line, distinct_lines
from trials.bridges.chaos import REPEATED, why_left_out
from trials.bridges.comparing import check_all
from trials.bridges.farm import CARDS, make_configurations
from trials.bridges.tally import Tally
from trials.bridges.work import Orders, by_request, check_work, request_of, some_declined
from trials.machines import network

if TYPE_CHECKING:
    # (it needs pika, which may be absent)
    from trials.machines.machines import Machines
    from trials.machines.stalls import Stalls

REQUESTS, SHORT_REQUESTS = 20_000, 1_000
REQUESTS_OF_ROUND = 1_000
# How long a machine is believed in that no longer answers: more where processors are scarce.
TICK_SECONDS = 8
# Requests a second at most, and how long they are asked at least.
RATE, ROUND_SECONDS = 60.0, 15.0
CHANGED = 0.01
ANSWER_SECONDS = 900.0
# After the last event it is three of three within so long.
WHOLE_SECONDS = 300.0
SHORT_EVENTS = ("power", "deposed", "forged", "cut", "node stopped", "leader")
TAKEN = "refused 11"
# What a node writes of its partitions at SIGTERM.
ENDS = ": the node ends"


class Options(NamedTuple):
    """The words of the command."""

    short: bool
    requests: int
    seed: int
    tick: int
    events: list[str]
    program: Optional[str]
    keep: Optional[str]
    loud: bool


class Round(NamedTuple):
    """What happens, and what is asked meanwhile."""

    event: str
    messages: list[str]


class Asked(NamedTuple):
    """What came of all rounds: each message's answers, and the longest silence of a partition in each round."""

    answers: dict[str, list[str]]
    silences: dict[str, list[float]]
    repeats: int
    published: int


def options_of(words: Sequence[str]) -> Options:
    parser = argparse.ArgumentParser(usage=__doc__)
    parser.add_argument("--short", action="store_true")
    parser.add_argument("--requests", type=int, default=0)
    parser.add_argument("--seed", type=int, default=1)
    parser.add_argument("--tick", type=int, default=TICK_SECONDS)
    parser.add_argument("--events", type=lambda names: names.split(","), default=[])
    parser.add_argument("--program", type=lambda path: os.path.abspath(path))
    parser.add_argument("--keep")
    parser.add_argument("--loud", action="store_true")
    options = Options(**vars(parser.parse_args(words)))
    return options._replace(requests=options.requests or (SHORT_REQUESTS if options.short else REQUESTS))


def events_of(options: Options, left_out: Mapping[str, str], dice: random.Random) -> list[str]:
    """Returns what happens in each round: in the long form each event once at least."""
    from trials.machines.events import EVENTS

    if options.events:
        found = options.events
    elif options.short:
        found = list(SHORT_EVENTS)
    else:
        rounds = max(options.requests // REQUESTS_OF_ROUND, len(EVENTS))
        weights = [event.weight for event in EVENTS.values()]
        found = [*EVENTS, *dice.choices(list(EVENTS), weights, k=rounds - len(EVENTS))]
        dice.shuffle(found)
    return [event for event in found if event not in left_out]


def rounds_of(messages: Sequence[str], events: Sequence[str], dice: random.Random) -> list[Round]:
    """Deals the messages to rounds: a tenth again in their round, a hundredth changed in the round after."""
    size = -(-len(messages) // len(events))
    found = []
    changed: list[str] = []
    for number, event in enumerate(events):
        part = list(messages[number * size : (number + 1) * size])
        again = dice.sample(part, int(len(part) * REPEATED))
        order = [*part, *again, *changed]
        dice.shuffle(order)
        changed = [changed_line(request_of(message)) for message in dice.sample(part, max(1, int(len(part) * CHANGED)))]
        found.append(Round(event, order))
    return [*found, Round("", changed)]


def rate_of(messages: Sequence[str]) -> float:
    """Returns the rate by which messages last for as long as what happens meanwhile."""
    return min(RATE, len(messages) / ROUND_SECONDS)


class Silences:
    """How long each partition was silent in a round."""

    def __init__(self) -> None:
        self.last: dict[int, float] = {}
        self.longest = 0.0

    def begin(self) -> None:
        self.last.clear()
        self.longest = 0.0

    def answered(self, partition: int, began: float, now: float) -> None:
        """A partition is silent from its last answer on, but not before something was asked of it."""
        self.longest = max(self.longest, now - max(self.last.get(partition, began), began))
        self.last[partition] = now


def ask_in_rounds(machines: "Machines", rounds: Sequence[Round], dice: random.Random, stalls: "Stalls") -> Asked:
    """Asks all messages, with an event in each round."""
    from issuer_host.broker.publisher import PublishedRequest
    from trials.machines.asker import PacedAsker
    from trials.machines.events import happen

    answers: dict[str, list[str]] = collections.defaultdict(list)
    found: dict[str, list[float]] = collections.defaultdict(list)
    silences = Silences()

    def answered(question: PublishedRequest, text: str) -> None:
        answers[question.line].append(text)
        silences.answered(question.partition, question.began, time.monotonic())
        stalls.move()

    files = machines.publisher_files()
    asker = PacedAsker(machines.partitions, files, ANSWER_SECONDS, answered)
    with asker:
        for one in rounds:
            silences.begin()
            stalls.begins(one.event, lambda: f"{len(asker.asked)} requests wait")
            happening = threading.Timer(dice.uniform(0.5, 3.0), happen, (machines, one.event, dice))
            if one.event:
                happening.start()
            for _ in asker.ask_paced(one.messages, rate_of(one.messages)):
                pass
            if one.event:
                happening.join()
                found[one.event].append(silences.longest)
        return Asked(answers, found, asker.repeats, asker.published)


def check_changed(tally: Tally, asked: Asked, changed: Sequence[str], lines: Sequence[str]) -> None:
    """Each changed request was refused by the record of the true one."""
    answers = by_request(asked.answers)
    originals = {changed_line(line): line for line in lines}
    for line in changed:
        reply = reply_of(answers[originals[line]][0]) or ""
        expected = " ".join([TAKEN, *reply.split(" ")[:2]])
        tally.check(set(answers[line]) == {expected}, f"a changed request was answered {answers[line]}, not {expected}")


def check_ends(tally: Tally, machines: "Machines") -> None:
    for node in machines.nodes:
        tally.check(not node.is_down, f"the node of {node.machine.name} stayed down: {dict(node.ends)}")
        lines = node.texts().splitlines()
        stopped = collections.Counter(line for line in lines if ": stopped: " in line and not line.endswith(ENDS))
        others = sorted((stopped - collections.Counter(node.excused)).elements())
        tally.check(not others, f"the node of {node.machine.name} stopped partitions: {others[:3]}")
    tally.check(not machines.faults, f"these didn't happen: {machines.faults}")


def check_redundancy(tally: Tally, machines: "Machines", stalls: "Stalls") -> None:
    """All that has copies has three of them again, by what the first machine's broker sees."""
    from trials.machines.brokers import comes

    lost: "list[str]" = []

    def is_whole() -> bool:
        lost[:] = machines.lost()
        return not lost

    stalls.waits("it is three of three", lambda: "; ".join(lost))
    machines.network.heal()
    tally.check(comes(is_whole, WHOLE_SECONDS), f"in {WHOLE_SECONDS} s it isn't three of three: {lost}")


def report(machines: "Machines", asked: Asked, seconds: float) -> None:
    """Prints what happened, and how long a partition was silent."""
    ends = ", ".join(f"{count} with {status}" for status, count in sorted(machines.ends().items(), key=str))
    answered = sum(map(len, asked.answers.values()))
    print(f"{asked.published} published, {answered} answered, {asked.repeats} answers dropped as repeats")
    print(f"{sum(map(len, asked.silences.values()))} events in {seconds:.0f} s; nodes ended: {ends or 'none'}")
    for event, found in sorted(asked.silences.items()):
        middle = sorted(found)[len(found) // 2]
        silence = f"longest silence of a partition {middle:6.1f} s in the middle, {max(found):6.1f} s at most"
        print(f"  {event:<12} {len(found):3} times, {silence}")


def play(options: Options, machines: "Machines", tally: Tally) -> None:
    from trials.machines.history import check_equal, check_prefixes
    from trials.machines.stalls import Stalls

    dice = random.Random(options.seed)
    lines = distinct_lines(CARDS, options.requests)
    messages = some_declined(lines, dice)
    machines.begin()
    machines.wait_until_served()
    for what, why in machines.left_out.items():
        print(f"left out: {what}: {why}")
    rounds = rounds_of(messages, events_of(options, machines.left_out, dice), dice)
    orders = Orders(machines, sorted({pan_of_line(line) for line in lines}), options.seed, ANSWER_SECONDS)
    began = time.monotonic()
    with Stalls(machines) as stalls:
        orders.begin()
        asked = ask_in_rounds(machines, rounds, dice, stalls)
        stalls.waits("the last order is done", lambda: orders.waiting)
        orders.end()
        seconds = time.monotonic() - began
        check_redundancy(tally, machines, stalls)
        machines.kill_nodes()
        check_prefixes(tally, machines, stalls.waits)
        machines.start_nodes()
        check_equal(tally, machines, waits=stalls.waits)
    machines.end_nodes()
    check_all(tally, machines, lines, by_request(asked.answers))
    check_work(tally, machines, messages, orders)
    known = set(messages)
    changed = {message for one in rounds for message in one.messages if message not in known}
    check_changed(tally, asked, sorted(changed), lines)
    check_ends(tally, machines)
    report(machines, asked, seconds)
    declined = len(known - set(lines))
    print(f"{len(lines)} requests, {len(changed)} changed, {declined} declined by accounts, {len(orders.done)} orders")


def run(options: Options, tally: Tally) -> None:
    from trials.machines.machines import Machines, PARTITIONS

    with tempfile.TemporaryDirectory(prefix="issuer-machines-") as room:
        make_configurations(room, options.program, PARTITIONS)
        machines = Machines(room, options.program, cluster_tick=options.tick)
        machines.is_loud = options.loud
        machines.are_watched = True
        try:
            play(options, machines, tally)
        finally:
            machines.end_nodes()
            if options.keep:
                shutil.copytree(room, options.keep, dirs_exist_ok=True, ignore=shutil.ignore_patterns(".erlang.cookie"))
            machines.end()


def main(words: Sequence[str]) -> int:
    options = options_of(words)
    signal.signal(signal.SIGTERM, lambda *_: sys.exit(1))
    tally = Tally()
    why = network.why_absent() or why_left_out(options.program)
    if why:
        print(f"left out: {why}")
    else:
        os.umask(0o077)
        run(options, tally)
    print(f"{tally.passed} passed, {tally.failed} failed")
    return 1 if tally.failed else 0
