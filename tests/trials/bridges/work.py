"""Accounts' declines and orders among the lines of a trial, and what the journals have to say of them."""
import os
import random
import threading
import time
from collections.abc import Mapping, Sequence
from typing import NamedTuple, Optional

from issuer_host.facts.journals import Decided, Queued, Record, StatusSet, journal_path, record_of, records_of
from issuer_host.facts.partitions import partition_of
from issuer_host.facts.refusal import Refusal
from issuer_host.facts.request_lines import QUEUE, SET_STATUS, pan_of_line
from issuer_host.orders import client
from issuer_host.orders.declines import body_of
from issuer_host.orders.texts import BEFORE, DONE
from trials.bridges.cards import ACCOUNT, ACCOUNT_CODE
from trials.bridges.farm import SHARDS
from trials.bridges.tally import Tally
from trials.bridges.tried import Tried

DECLINED = 0.1
# A status that no row of the table names.
OTHER = 5
# Commands that a card is queued at most: none of the trial's cards runs one.
COMMANDS = 40
PAUSE_SECONDS = 0.05
# An order has to be done in this time, whatever ends meanwhile.
ORDER_SECONDS = 120.0
# So long the last one may take, once nothing ends any more.
LAST_SECONDS = 180.0


def some_declined(lines: Sequence[str], dice: random.Random) -> list[str]:
    """Returns the messages of lines: a tenth of them are declined by their accounts."""
    return [body_of(line, ACCOUNT) if dice.random() < DECLINED else line for line in lines]


def request_of(message: str) -> str:
    """Returns the request of a message."""
    return message.split("\n")[1] if "\n" in message else message


def by_request(answers: Mapping[str, Sequence[str]]) -> dict[str, list[str]]:
    return {request_of(message): list(some) for message, some in answers.items()}


class Ordered(NamedTuple):
    """An order, and the answer that it got."""

    partition: int
    line: str
    answer: str


class Orders:
    """Orders that are given one after another while a trial goes on, each again until it is done."""

    def __init__(self, farm: Tried, pans: Sequence[str], seed: int, seconds: float = ORDER_SECONDS) -> None:
        self.farm = farm
        self.pans = pans
        self.seconds = seconds
        self.dice = random.Random(seed)
        self.is_over = threading.Event()
        self.done: list[Ordered] = []
        self.undone: list[str] = []
        # What is being ordered, and what came of it so far.
        self.waiting = ""
        self.thread = threading.Thread(target=self.give, daemon=True)

    def begin(self) -> None:
        self.thread.start()

    def end(self, seconds: float = LAST_SECONDS) -> None:
        """Gives no more orders, and waits so long for the last one: nothing happens to anybody any more."""
        self.is_over.set()
        self.thread.join(seconds)
        if self.thread.is_alive():
            self.undone.append(self.waiting)

    def give(self) -> None:
        queued = dict.fromkeys(self.pans, 0)
        while not self.is_over.wait(PAUSE_SECONDS):
            pan = self.dice.choice(self.pans)
            line = f"{SET_STATUS} {pan} 00 {self.dice.choice((0, OTHER))}"
            if self.dice.random() < 0.5 and queued[pan] < COMMANDS:
                queued[pan] += 1
                line = f"{QUEUE} {pan} 00 04da{len(self.done):04x}"
            answer = self.answer_of(self.partition(pan), line)
            if answer is None:
                self.undone.append(self.waiting)
                return
            self.done.append(Ordered(self.partition(pan), line, answer))

    def partition(self, pan: str) -> int:
        return partition_of(pan, self.farm.partitions)

    def answer_of(self, partition: int, line: str) -> Optional[str]:
        """Gives an order until it is done."""
        number = f"{os.urandom(8).hex()}/1"
        end, reply = time.monotonic() + self.seconds, ""
        while time.monotonic() < end:
            self.waiting = f"partition {partition}, {line}: {reply or 'no reply'}"
            try:
                reply = client.SocketTaker(self.farm.sockets(partition)).reply_of(number, line)
            except Refusal as refusal:
                reply = str(refusal)
            word, _, answer = reply.partition(" ")
            if word in (DONE, BEFORE):
                return answer
            time.sleep(PAUSE_SECONDS)
        return None


def check_work(tally: Tally, farm: Tried, messages: Sequence[str], orders: Orders) -> None:
    """Each order has one record, which its answer names; each decline is its card's neighbours; statuses come back."""
    tally.check(not orders.undone, f"orders that weren't done: {orders.undone}")
    declined = {request_of(message) for message in messages if "\n" in message}
    pans = [pan_of_line(line) for line in declined]
    for partition in range(farm.partitions):
        records = {shard: read(farm.journal(partition), shard) for shard in range(SHARDS)}
        done = [order for order in orders.done if order.partition == partition]
        check_orders(tally, records, done)
        found = check_declines(tally, [record for shard in records.values() for record in shard])
        expected = sum(partition_of(pan, farm.partitions) == partition for pan in pans)
        tally.check(found == expected, f"partition {partition} has {found} declined records for {expected} declines")
        check_statuses(tally, [record for shard in records.values() for record in shard], done)


def read(journal: str, shard: int) -> list[Record]:
    return [record_of(line) for line in records_of(journal_path(journal, shard))]


def check_orders(tally: Tally, records: Mapping[int, Sequence[Record]], done: Sequence[Ordered]) -> None:
    for order in done:
        form, pan, _, value = order.line.split(" ")
        kind, shard, place = order.answer.split(" ")
        record = records[int(shard)][int(place)]
        said = record.command if isinstance(record, Queued) else ""
        said = str(record.status) if isinstance(record, StatusSet) else said
        tally.check((record.card[0], said) == (pan, value), f"the order of {form} at {kind} {shard} {place}")
    commands = [record for shard in records.values() for record in shard if isinstance(record, Queued)]
    expected = sum(order.line.startswith(QUEUE) for order in done)
    tally.check(len(commands) == expected, f"{len(commands)} commands for {expected} orders")


def check_declines(tally: Tally, records: Sequence[Record]) -> int:
    """Returns how many requests the account's row declined: each right behind the status of its card, and no other."""
    before: dict[str, Record] = {}
    found = 0
    for record in records:
        last = before.get(record.card[0])
        has_status = isinstance(last, StatusSet) and last.status == ACCOUNT
        if isinstance(record, Decided):
            found += record.code == ACCOUNT_CODE
            tally.check((record.code == ACCOUNT_CODE) == has_status, f"a decision with {record.code}")
        elif isinstance(last, Decided) and last.code == ACCOUNT_CODE:
            tally.check(isinstance(record, StatusSet) and record.status != ACCOUNT, "what comes behind a decline")
        before[record.card[0]] = record
    return found


def check_statuses(tally: Tally, records: Sequence[Record], done: Sequence[Ordered]) -> None:
    """Each card has the status that it was last ordered, or 0."""
    last = {record.card[0]: str(record.status) for record in records if isinstance(record, StatusSet)}
    ordered = {}
    for order in done:
        form, pan, _, value = order.line.split(" ")
        if form == SET_STATUS:
            ordered[pan] = value
    for pan, status in last.items():
        tally.check(status == ordered.get(pan, "0"), f"a card's status is {status}")
