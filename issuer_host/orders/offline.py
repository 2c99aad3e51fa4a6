"""Orders over journals that no host serves: the program puts the lines, and the cards are compared before and after."""
import collections
import contextlib
import fcntl
import os
from collections.abc import Iterator, Mapping, Sequence
from typing import Optional

from issuer_host.facts.answers import REFUSED, kind_of
from issuer_host.facts.masks import name_of_card
from issuer_host.facts.refusal import Refusal
from issuer_host.facts.request_lines import QUEUE
from issuer_host.facts.show_lines import ShownCard
from issuer_host.facts.statuses import Status
from issuer_host.files.audit import Audit
from issuer_host.files.card_records import records_of
from issuer_host.files.folders import open_own
from issuer_host.host import offline
from issuer_host.host.offline import Card
from issuer_host.orders.arguments import OrderOptions
from issuer_host.orders.intent_log import WorkFile, restoring_line
from issuer_host.orders.order import Order, order_of
from issuer_host.orders.units import stopped


@contextlib.contextmanager
def alone(journal: str) -> Iterator[None]:
    """Keeps a second order out until this one ends."""
    with open(open_own(f"{journal}.orders", os.O_CREAT | os.O_RDWR), "r") as lock:
        try:
            fcntl.flock(lock, fcntl.LOCK_EX | fcntl.LOCK_NB)
        except BlockingIOError as fault:
            what = "another order on these journals runs; wait for it, and look at what it prints"
            raise Refusal(what) from fault
        yield


def check(lines: Sequence[Order], before: Mapping[Card, ShownCard], queued: Optional[int]) -> None:
    """Refuses lines for unknown cards, and a card that isn't as the operator thinks."""
    for line in lines:
        if line.card not in before:
            raise Refusal(f"no {name_of_card(*line.card)} is in this configuration; nothing was ordered")
    if queued is None:
        return
    cards = {line.card for line in lines}
    if len(cards) != 1:
        raise Refusal("--queued is for lines of one card")
    found = before[cards.pop()].queued
    if found != queued:
        raise Refusal(f"the card has had {found} commands and not {queued}; nothing was ordered")


def differences(
    lines: Sequence[Order],
    answers: Sequence[str],
    before: Mapping[Card, ShownCard],
    after: Mapping[Card, ShownCard],
) -> list[str]:
    """Returns what isn't as the lines ask."""
    queued: collections.Counter[Card] = collections.Counter()
    status: dict[Card, int] = {}
    found = []
    for number, (line, answer) in enumerate(zip(lines, answers), 1):
        if kind_of(answer).word == REFUSED:
            found.append(f"line {number}, of {name_of_card(*line.card)}, was answered `{answer}`")
        elif line.kind == QUEUE:
            queued[line.card] += 1
        else:
            status[line.card] = int(line.value)
    if len(answers) != len(lines):
        found.append(f"{len(answers)} of {len(lines)} lines were answered")
    for card, shown in before.items():
        expected = shown.queued + queued[card], status.get(card, shown.status)
        now = after[card].queued, after[card].status
        if now != expected:
            what = f"queued {now[0]} and status {now[1]}, but {expected[0]} and {expected[1]} were expected"
            found.append(f"{name_of_card(*card)} has {what}")
    return found


def restoring(file: WorkFile) -> list[Order]:
    """Returns the lines that give cards the status back that interrupted declines of their accounts have left."""
    declines = file.declines()
    if not declines:
        return []
    records = records_of(file.journal)
    lines = [restoring_line(begun, records) for begun in declines]
    return orders_of([line for line in lines if line])


def orders_of(lines: Sequence[str]) -> list[Order]:
    return [order for order in (order_of(f"-/{at}", line) for at, line in enumerate(lines)) if order]


def settle(file: WorkFile) -> None:
    """Notes what became of interrupted work, as the journals say: that of declines is undone by now."""
    if file.open:
        file.settle_orders(records_of(file.journal))
        for begun in file.declines():
            file.end(begun.number)


def order(options: OrderOptions, texts: Sequence[str]) -> None:
    where = options.config, options.journal, options.program
    lines = orders_of(texts)
    intents = WorkFile(options.journal, "order")
    with alone(options.journal), stopped(options.service), contextlib.closing(intents) as file:
        try:
            before = offline.show(*where)
            check(lines, before, options.queued)
            file.load()
            if file.fault:
                raise Refusal(file.fault)
            first = restoring(file)
            answers = offline.serve([line.text for line in (*first, *lines)], *where)
            after = offline.show(*where)
            settle(file)
        except offline.Failed as fault:
            is_busy = fault.status == Status.JOURNAL_CLOSED
            busy = " A host serves them: name its units by --service, or order by --socket." if is_busy else ""
            raise Refusal(f"{fault}.{busy}") from fault
    audit = Audit(options.journal, "order")
    for line, answer in zip((*first, *lines), answers):
        audit.answered("order", line.text, line.card[0], answer, os.getuid())
    print("\n".join(answers[len(first) :]))
    found = differences([*first, *lines], answers, before, after)
    if found:
        raise Refusal("; ".join(found))
