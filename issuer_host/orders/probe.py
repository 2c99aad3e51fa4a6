"""A probe: a line of no form that a partition's host answers, and that leaves no record.

That a unit is active says that its process runs. An answer says that the host has loaded its journals and answers; of
several machines, that this one serves the partition.
"""
from collections.abc import Callable

from typing import Protocol

from issuer_host.orders.in_order import CardWorks, Ledger, Put, Steps, Work
from issuer_host.orders.texts import ANSWERS, NO_ANSWER

LINE = "x"


class Probe(Work):
    """A probe that is put. `reply` gets what became of it, once."""

    by = "probe"

    def __init__(self, reply: Callable[[str], object]) -> None:
        # (no card has this PAN)
        super().__init__("")
        self.reply = reply

    def steps(self, ledger: Ledger) -> Steps:
        answer = yield Put(LINE)
        self.reply(f"{ANSWERS} {answer}")

    def drop(self, why: str) -> None:
        self.reply(f"{NO_ANSWER}: {why}")


class ProbedKeeper(Protocol):
    """Who runs the partition."""

    def why_no_order(self) -> str:
        """Why nothing is put to its host now; nothing if it is."""


class Prober:
    """Puts probes to a partition's host."""

    def __init__(self, keeper: ProbedKeeper, works: CardWorks) -> None:
        self.keeper, self.works = keeper, works

    def put(self, _: str, reply: Callable[[str], object]) -> None:
        why = self.keeper.why_no_order()
        if why:
            reply(f"{NO_ANSWER}: {why}")
        else:
            self.works.add(Probe(reply))
