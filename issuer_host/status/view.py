"""The view that page and terminal draw: a sentence, what to do, rows of cells, changes and plots. Texts alone."""
import time
from collections.abc import Iterable, Sequence
from typing import NamedTuple, Optional

from issuer_host.status.rules import TAKEOVER_SECONDS, Todo, is_asked, numbers, todos_of
from issuer_host.status.state import ClusterState, Form, PartitionState, Point, SourceState

NOW, SOON = "NOW", "SOON"
TAKING = "taking over"
# What isn't known, and what there isn't.
UNKNOWN, NONE = "?", "-"


class ViewRow(NamedTuple):
    """A line of a table; red if something is to do about it."""

    cells: "tuple[str, ...]"
    is_red: bool


class Table(NamedTuple):
    """A table: the heads of its columns, how many of them are words, those that a narrow terminal has, and its rows."""

    title: str
    heads: "tuple[str, ...]"
    words: int
    narrow: "tuple[str, ...]"
    rows: "tuple[ViewRow, ...]"


class Plot(NamedTuple):
    """Points of a figure, with what they are."""

    title: str
    value: str
    most: str
    points: "tuple[float, ...]"
    since: float


class View(NamedTuple):
    """All that is drawn."""

    at: str
    title: str
    sentence: str
    is_well: bool
    is_now: bool
    todos: "tuple[Todo, ...]"
    tables: "tuple[Table, ...]"
    changes: "tuple[tuple[str, str], ...]"
    plots: "tuple[Plot, ...]"

    @property
    def status(self) -> int:
        """The status of a command that prints it: 0, 1 if something is to do soon, 2 if now."""
        return 0 if self.is_well else 2 if self.is_now else 1


def word_of(todo: Todo) -> str:
    return NOW if todo.is_now else SOON


def seconds(value: Optional[float]) -> str:
    """Returns a time in words of one unit."""
    if value is None:
        return UNKNOWN
    for unit, size in (("d", 86400.0), ("h", 3600.0), ("min", 60.0)):
        if value >= 2 * size:
            return f"{value / size:.0f} {unit}"
    return f"{value:.0f} s"


def size(value: Optional[float]) -> str:
    if value is None:
        return UNKNOWN
    for unit, least in (("TB", 1e12), ("GB", 1e9), ("MB", 1e6), ("kB", 1e3)):
        if value >= least:
            return f"{value / least:.{0 if value >= 10 * least else 1}f} {unit}"
    return f"{value:.0f} B"


def time_of(at: float) -> str:
    return time.strftime("%H:%M:%S", time.localtime(at))


def state_of(partition: PartitionState) -> str:
    """Returns the state of a partition in words."""
    if partition.serving:
        return "full disk" if partition.is_refusing else "served"
    if partition.stopped and not partition.followers:
        return "stopped"
    if not partition.followers:
        return "nobody follows"
    is_taken = is_asked(partition) or partition.silent and partition.unserved < TAKEOVER_SECONDS
    return f"{TAKING}, {seconds(partition.unserved)}" if is_taken else "not asked"


def partition_row(state: ClusterState, partition: PartitionState, red: "frozenset[object]") -> ViewRow:
    last = UNKNOWN if not partition.began else f"{seconds(state.at - partition.began)} ago, {partition.start:.1f} s"
    is_node, is_gateway = partition.form is Form.NODE, partition.form is Form.GATEWAY
    cells = (
        str(partition.number),
        state_of(partition),
        partition.serving or NONE,
        ", ".join(partition.followers) or NONE,
        NONE if not is_node else UNKNOWN if partition.behind is None else str(partition.behind),
        seconds(partition.answered),
        f"{partition.rate:.0f}",
        NONE if is_gateway else UNKNOWN if partition.waiting is None else str(partition.waiting),
        str(partition.in_flight),
        seconds(partition.uncounted) if is_node else NONE,
        size(partition.journals),
        size(partition.free),
        last,
    )
    return ViewRow(cells, partition.number in red)


PARTITIONS = (
    *("P", "state", "served by", "followed by", "behind", "last answer", "a second", "waiting", "in flight"),
    *("uncounted", "journals", "disk free", "last start"),
)
NARROW_PARTITIONS = ("P", "state", "served by", "behind", "last answer", "a second", "in flight", "disk free")
SOURCES = ("name", "what", "state", "serves", "follows", "brokers", "copies online", "alarms")
NARROW_SOURCES = ("name", "state", "serves", "follows", "brokers", "alarms")


def state_of_source(source: SourceState) -> str:
    if source.silent:
        return f"no answer for {seconds(source.silent)}"
    return f"no broker for {seconds(source.unconnected)}" if source.unconnected else "answers"


def source_row(source: SourceState, red: "frozenset[object]") -> ViewRow:
    broker = source.broker
    unknown = NONE if source.form is Form.GATEWAY else UNKNOWN
    cells = (
        source.name,
        source.form.value,
        state_of_source(source),
        str(source.serves),
        str(source.follows),
        f"{broker.running} of {broker.wanted}" if broker and broker.wanted else unknown,
        f"{broker.online} of {broker.members}" if broker and broker.members else unknown,
        unknown if broker is None else ", ".join(broker.alarms) or "none",
    )
    return ViewRow(cells, source.name in red)


def sentence_of(state: ClusterState, todos: Sequence[Todo]) -> str:
    """Says whether a person may go back to bed."""
    served = sum(bool(one.serving) for one in state.partitions)
    idle = sum(not one.serving and state_of(one) == "not asked" for one in state.partitions)
    answering = sum(not source.silent for source in state.sources)
    what = "machines" if state.has_nodes else "services"
    if not state.partitions:
        return "Nothing is known: no source of figures has answered yet."
    if not todos:
        asked = f", {idle} not asked" if idle else ""
        partitions = f"{served} of {len(state.partitions)} partitions are served{asked}"
        return f"All is well: {partitions}, {answering} of {len(state.sources)} {what} answer. Nothing to do."
    now = sum(todo.is_now for todo in todos)
    if now:
        return f"{count(now)} to do now."
    taken = [one for one in state.partitions if state_of(one).startswith(TAKING)]
    more = f"Being taken over: {numbers(taken)}." if taken else "All that are asked are served."
    return f"{count(len(todos))} to do soon. {more if taken or idle else 'All partitions are served.'}"


def count(number: int) -> str:
    return f"{number} thing{'s' * (number > 1)}"


def plot_of(title: str, unit: str, points: Sequence[Point], values: Iterable[float], at: float) -> Plot:
    found = tuple(values)
    since = at - points[0].at if points else 0.0
    return Plot(title, f"{found[-1]:.0f} {unit}", f"{max(found):.0f} {unit}", found, since)


def view_of(state: ClusterState) -> View:
    """Makes the view of a state."""
    todos = todos_of(state)
    red: "frozenset[object]" = frozenset().union(*(todo.about for todo in todos))
    partitions = Table(
        "Partitions",
        PARTITIONS,
        4,
        NARROW_PARTITIONS,
        tuple(partition_row(state, one, red) for one in state.partitions),
    )
    title = "Machines and their brokers" if state.has_nodes else "Services"
    sources = Table(title, SOURCES, 3, NARROW_SOURCES, tuple(source_row(one, red) for one in state.sources))
    rates, silences = [point.rate for point in state.points], [point.silence for point in state.points]
    plots = (
        plot_of("Answers, all partitions", "a second", state.points, rates, state.at),
        plot_of("Longest wait of a request that isn't answered", "s", state.points, silences, state.at),
    )
    is_now = any(todo.is_now for todo in todos) or not state.partitions
    mark = "" if not todos else f"(!{len(todos)}) " if is_now else f"({len(todos)}) "
    return View(
        at=time.strftime("%d %B %Y, %H:%M:%S", time.localtime(state.at)),
        title=f"{mark}issuer",
        sentence=sentence_of(state, todos),
        is_well=not todos and bool(state.partitions),
        is_now=is_now,
        todos=tuple(todos),
        tables=(partitions, sources),
        changes=tuple((time_of(change.at), change.what) for change in state.changes),
        plots=plots,
    )
