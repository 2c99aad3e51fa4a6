"""Failures of machines, disks and racks, year by year, and what they come to for a partition.

`tools/availability` says what is played and prints it.
"""
import bisect
import random
from collections.abc import Callable, Iterator
from typing import NamedTuple

MINUTE, HOUR, DAY = 1 / 60, 1.0, 24.0
SECOND = 1 / 3600
YEAR = 365 * DAY


class Rates(NamedTuple):
    """How often something fails in a year, and how many hours it then takes."""

    # A machine stops, and comes back with its disks.
    crashes: float = 2.0
    crash_hours: float = 0.25
    # A machine's disks are gone, with all that was on them.
    disks: float = 0.02
    disk_hours: float = 8.0
    # A rack has no power or no network, and all its machines with it.
    racks: float = 0.1
    rack_hours: float = 2.0
    # How long it is until a person has acted.
    person_hours: float = 0.5
    # How many seconds a standby's last record is late, and a third broker's.
    standby_seconds: float = 1.0
    broker_seconds: float = 0.1
    # How long other machines take to go on where one failed.
    failover_seconds: float = 10.0


RATES = Rates()


class Interval(NamedTuple):
    """From when to when, in hours of the year, and whether the disks are gone."""

    begin: float
    end: float
    loses_disks: bool = False


class Outcome(NamedTuple):
    """A year: hours without answers, and records that were lost."""

    silent: float
    lost: float


Form = Callable[["Year", float], Outcome]


class Year:
    """The failures of one year: of machines by their number, and of racks."""

    def __init__(self, dice: random.Random, rates: Rates) -> None:
        self.dice = dice
        self.rates = rates

    def drawn(self, a_year: float, hours: float, loses_disks: bool = False) -> Iterator[Interval]:
        """Draws what fails so often, for so long on average."""
        at = self.wait(a_year)
        while at < YEAR:
            end = at + self.dice.expovariate(1 / hours)
            yield Interval(at, end, loses_disks)
            at = end + self.wait(a_year)

    def wait(self, a_year: float) -> float:
        return self.dice.expovariate(a_year / YEAR) if a_year else YEAR

    def rack(self) -> list[Interval]:
        return list(self.drawn(self.rates.racks, self.rates.rack_hours))

    def machine(self, rack: list[Interval]) -> list[Interval]:
        """Returns when a machine of a rack is away, each failure for itself, in their order."""
        crashes = self.drawn(self.rates.crashes, self.rates.crash_hours)
        disks = self.drawn(self.rates.disks, self.rates.disk_hours, True)
        return sorted([*rack, *crashes, *disks])

    def person(self) -> float:
        return self.dice.expovariate(1 / self.rates.person_hours)


def covered(intervals: list[Interval]) -> float:
    """Returns how many hours of the year some interval has."""
    total, reached = 0.0, 0.0
    for one in sorted(intervals):
        total += max(0.0, min(one.end, YEAR) - max(one.begin, reached))
        reached = max(reached, min(one.end, YEAR))
    return total


def is_away(away: list[Interval], at: float) -> bool:
    return any(one.begin <= at < one.end for one in away[: bisect.bisect_right(away, at, key=lambda one: one.begin)])


def common(sets: list[list[Interval]], least: int) -> list[Interval]:
    """Returns when at least so many of the sets have an interval."""
    edges = sorted(edge for away in sets for one in joined(away) for edge in ((one.begin, 1), (one.end, -1)))
    found, count, since = [], 0, 0.0
    for at, step in edges:
        if count == least - 1 and step > 0:
            since = at
        elif count == least and step < 0:
            found.append(Interval(since, at))
        count += step
    return found


def joined(away: list[Interval]) -> list[Interval]:
    """Returns intervals of one set without overlaps."""
    found: list[Interval] = []
    for one in sorted(away):
        if found and one.begin <= found[-1].end:
            found[-1] = Interval(found[-1].begin, max(found[-1].end, one.end))
        else:
            found.append(Interval(one.begin, one.end))
    return found


def one_machine(year: Year, rate: float) -> Outcome:
    away = year.machine(year.rack())
    # (the last copy is of some time of the day before)
    lost = sum(year.dice.uniform(0.0, DAY) / SECOND * rate for one in away if one.loses_disks)
    return Outcome(covered(away), lost)


def by_hand(year: Year, rate: float) -> Outcome:
    """The serving machine changes at each promotion."""
    machines = [year.machine(year.rack()) for _ in range(2)]
    silent: list[Interval] = []
    serving, lost, at = 0, 0.0, 0.0
    while True:
        gone = next((one for one in machines[serving] if one.end > at), None)
        if gone is None or gone.begin >= YEAR:
            return Outcome(covered(silent), lost)
        began = max(gone.begin, at)
        acted = began + year.person()
        standby = machines[1 - serving]
        is_there = not is_away(standby, acted)
        if is_there and (acted < gone.end or gone.loses_disks):
            lost += rate * year.rates.standby_seconds
            serving = 1 - serving
            at = acted
        else:
            at = gone.end
            lost += rate * year.dice.uniform(0.0, DAY) / SECOND if gone.loses_disks else 0.0
        silent.append(Interval(began, at))


def on_three(year: Year, rate: float, racks: int) -> Outcome:
    """Two of three have to be there; where one fails that serves, the others go on after a while."""
    common_rack = year.rack()
    machines = [year.machine(common_rack if racks == 1 else year.rack()) for _ in range(3)]
    pause = year.rates.failover_seconds * SECOND
    fails = [Interval(one.begin, one.begin + pause) for away in machines for one in away]
    # (a third of the partitions is served by each machine)
    served = [one for one in fails if year.dice.random() < 1 / 3]
    all_gone = common(machines, 3)
    repaired = [Interval(one.begin, one.end + year.person()) for one in all_gone]
    silent = [*common(machines, 2), *served, *repaired]
    return Outcome(covered(silent), lost_of_three(machines, rate, year.rates))


def lost_of_three(machines: list[list[Interval]], rate: float, rates: Rates) -> float:
    """Two machines' disks that are gone at once take what the third doesn't have yet; three take all since the copy."""
    without_disks = [[one for one in away if one.loses_disks] for away in machines]
    lost = len(common(without_disks, 2)) * rate * rates.broker_seconds
    return lost + len(common(without_disks, 3)) * rate * DAY / SECOND


def three_in_one_rack(year: Year, rate: float) -> Outcome:
    return on_three(year, rate, 1)


def three_in_three_racks(year: Year, rate: float) -> Outcome:
    return on_three(year, rate, 3)


FORMS: dict[str, Form] = {
    "one machine": one_machine,
    "a standby by hand": by_hand,
    "three machines in one rack": three_in_one_rack,
    "three machines in three racks": three_in_three_racks,
}


def play(form: Form, years: int, seed: int, rate: float, rates: Rates = RATES) -> list[Outcome]:
    """Plays so many years of a form. The years of a seed are always the same."""
    return [form(Year(random.Random(f"{seed} {number}"), rates), rate) for number in range(years)]
