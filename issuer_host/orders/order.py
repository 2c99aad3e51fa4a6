"""An operator's order that a gateway, a bridge or a node puts to its host while that runs.

Each line of an order has a number of its own. Before it is put, that is noted durably, and what became of it after; so
a line with a number that was recorded isn't put again: it gets the first one's answer. A line that got a refusal left
no record, and may be put again.
"""
from collections.abc import Callable
from typing import NamedTuple, Optional

from issuer_host.facts.answers import RECORDED, REFUSED, RefusalNumber, kind_of
from issuer_host.facts.masks import name_of_card
from issuer_host.files.card_records import Card
from issuer_host.orders.in_order import Ledger, Put, Steps, Work
from issuer_host.orders.intent_log import Begun, sum_of
from issuer_host.orders.order_types import is_number_of_line, words_of
from issuer_host.orders.texts import BEFORE, DONE, NOT_DONE

NOT_RECORDED = f"{REFUSED} {int(RefusalNumber.STORE_FAULT)}"


class Order(NamedTuple):
    """A line that is ordered, with its number."""

    number: str
    text: str
    kind: str
    card: Card
    value: str


def order_of(number: str, text: str) -> Optional[Order]:
    """Returns the order of a line, or None if the line or the number has another form."""
    words = words_of(text)
    if not words or not is_number_of_line(number):
        return None
    kind, pan, psn, value = words
    return Order(number, text, kind, (pan, psn), value)


class Ordered(Work):
    """An order that is put. `reply` gets what became of it, once."""

    by = "order"

    def __init__(self, order: Order, uid: int, reply: Callable[[str], object]) -> None:
        super().__init__(order.card[0])
        self.order = order
        self.uid = uid
        self.number = order.number
        self.reply = reply

    def steps(self, ledger: Ledger) -> Steps:
        """The line, if it wasn't put before."""
        number, text, kind, card, value = self.order
        known = ledger.file.ended.get(number)
        if known is not None:
            is_same = known[0] == self.sum()
            self.reply(f"{BEFORE} {known[1]}" if is_same else f"{NOT_DONE} done: {number} was another line's number")
            return
        if number not in ledger.file.open:
            try:
                total = ledger.records.of(kind, card).total
                ledger.file.begin(Begun(number, kind, *card, total, self.sum()))
            except OSError as fault:
                self.reply(f"{NOT_DONE} done: it can't be noted beside the journals: {fault.strerror}")
                return
        answer = yield Put(text)
        if kind_of(answer).word in RECORDED:
            ledger.file.end(number, answer)
            self.reply(f"{DONE} {answer}")
            return
        if answer != NOT_RECORDED:
            ledger.file.end(number)
        self.reply(f"{NOT_DONE} done: {name_of_card(*card)}: {answer}")

    def sum(self) -> str:
        """Returns what tells this order's line from others of its number."""
        return sum_of(self.order.kind, self.order.card, self.order.value)

    def drop(self, why: str) -> None:
        self.reply(f"{NOT_DONE} known: {why}")
