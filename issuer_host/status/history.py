"""Makes the state of a moment of what the sources say, and of what they said before. It has no clock and no network."""
import collections
from collections.abc import Iterable, Mapping
from typing import NamedTuple, Optional

from issuer_host.status import broker_state
from issuer_host.status.figures_text import HAS_HOST, SERVING, FiguresText
from issuer_host.status.state import Change, ClusterState, Form, PartitionState, Point, SourceState

CONNECTED = "issuer_broker_connected"
ANSWERS, GATEWAY_UP = "issuer_answers_total", "issuer_gateway_hosts_up"
# Rates are those of so many seconds, and a disk that refused a record does so for as long.
RATE_SECONDS = 10.0
MOST_CHANGES, MOST_POINTS = 12, 120

Pages = Mapping[str, Optional[FiguresText]]


class Counted(NamedTuple):
    """Answers of a partition at a moment, and those that a full disk refused."""

    at: float
    answers: float
    refused: float


class PartitionPast:
    """What is remembered of a partition."""

    def __init__(self) -> None:
        self.counted: "collections.deque[Counted]" = collections.deque()
        self.serving = ""
        self.answered: Optional[float] = None
        self.unserved_since: Optional[float] = None
        # The counters of each source, as it said them last.
        self.of_source: "dict[str, tuple[float, float]]" = {}
        self.answers = self.refused = 0.0

    def take(self, now: float, pages: Pages, number: int) -> None:
        """Takes the counters of all sources. One that is smaller than before began anew."""
        grown = 0.0
        for name, page in pages.items():
            if page is None:
                continue
            answers = page.number(ANSWERS, number)
            refused = sum(page.all(ANSWERS, partition=str(number), refusal="15"))
            before = self.of_source.get(name, (answers, refused))
            grown += answers - before[0] if answers >= before[0] else answers
            self.refused += refused - before[1] if refused >= before[1] else refused
            self.of_source[name] = answers, refused
        self.answers += grown
        if grown:
            self.answered = now
        self.counted.append(Counted(now, self.answers, self.refused))
        while self.counted[0].at < now - RATE_SECONDS:
            self.counted.popleft()

    def rate(self) -> float:
        first, last = self.counted[0], self.counted[-1]
        return (last.answers - first.answers) / (last.at - first.at) if last.at > first.at else 0.0

    def is_refusing(self) -> bool:
        return self.counted[-1].refused > self.counted[0].refused


class SourcePast:
    """What is remembered of a source: what it was when it answered last."""

    def __init__(self, now: float) -> None:
        self.form = Form.NODE
        self.partitions: "list[int]" = []
        self.answered = now
        self.is_silent = False
        self.unconnected_since: Optional[float] = None
        self.was_connected = False
        # Whether it has ever answered.
        self.is_known = False


class History:
    """What was seen so far."""

    def __init__(self, names: Iterable[str], now: float) -> None:
        self.sources = {name: SourcePast(now) for name in names}
        self.partitions: "dict[int, PartitionPast]" = {}
        self.changes: "collections.deque[Change]" = collections.deque(maxlen=MOST_CHANGES)
        self.points: "collections.deque[Point]" = collections.deque(maxlen=MOST_POINTS)

    def take(self, now: float, clock: float, pages: Pages) -> ClusterState:
        """Takes what each source says, None for one that doesn't answer. `clock` is the time of day."""
        for name, past in self.sources.items():
            self.look(name, past, pages[name], now, clock)
        numbers = sorted({number for past in self.sources.values() for number in past.partitions})
        partitions = tuple(self.partition(number, now, clock, pages) for number in numbers)
        silence = max((one.oldest for one in partitions), default=0.0)
        self.points.append(Point(clock, sum(one.rate for one in partitions), silence))
        sources = tuple(self.source(name, now, pages[name], partitions) for name in self.sources)
        return ClusterState(clock, sources, partitions, tuple(self.changes)[::-1], tuple(self.points))

    def change(self, clock: float, what: str) -> None:
        self.changes.append(Change(clock, what))

    def look(self, name: str, past: SourcePast, page: Optional[FiguresText], now: float, clock: float) -> None:
        """Notes whether a source answers, and what it is."""
        is_silent = page is None
        if is_silent != past.is_silent and past.is_known:
            self.change(clock, f"{name} doesn't answer" if is_silent else f"{name} answers again")
        past.is_silent = is_silent
        if page is not None:
            past.answered, past.is_known = now, True
            past.form, past.partitions = form_of(page), page.partitions()
            connected = page.all(CONNECTED)
            if not connected or any(connected):
                past.unconnected_since, past.was_connected = None, True
            elif past.unconnected_since is None:
                past.unconnected_since = now
                if past.was_connected:
                    self.change(clock, f"{name} has no connection to the broker")
                    past.was_connected = False

    def source(
        self, name: str, now: float, page: Optional[FiguresText], partitions: "tuple[PartitionState, ...]"
    ) -> SourceState:
        past = self.sources[name]
        serves = sum(one.serving == name for one in partitions)
        follows = sum(name in one.followers for one in partitions)
        silent = now - past.answered if past.is_silent else 0.0
        broker = None if page is None else broker_state.of_page(page)
        since = past.unconnected_since
        unconnected = 0.0 if since is None or past.is_silent else max(now - since, 1e-3)
        return SourceState(name, past.form, silent, unconnected, serves, follows, broker)

    def partition(self, number: int, now: float, clock: float, pages: Pages) -> PartitionState:
        past = self.partitions.setdefault(number, PartitionPast())
        had = [name for name, source in self.sources.items() if number in source.partitions]
        here: "dict[str, FiguresText]" = {name: page for name in had if (page := pages[name]) is not None}
        past.take(now, here, number)
        serving = next((name for name, page in here.items() if serves(page, number)), "")
        self.note_serving(number, past, serving, now, clock)
        stopped = tuple(name for name, page in here.items() if page.number("issuer_partition_stopped", number))
        followers = tuple(
            name for name, page in here.items() if name != serving and name not in stopped and follows(page, number)
        )
        best = here[serving] if serving else next(iter(here.values()), FiguresText(()))
        free = [value for page in here.values() for value in page.all(FREE, partition=str(number))]
        answered = None if past.answered is None else now - past.answered
        return PartitionState(
            number=number,
            form=self.sources[had[0]].form,
            serving=serving,
            unserved=0.0 if past.unserved_since is None else now - past.unserved_since,
            followers=followers,
            stopped=stopped,
            stop_reason=here[stopped[0]].label(STOP_REASON, "reason", number) if stopped else "",
            silent=tuple(name for name in had if name not in here),
            behind=behind_of(here, serving, followers, number),
            answered=answered,
            rate=past.rate(),
            in_flight=int(sum(page.number("issuer_lines_in_flight", number) for page in here.values())),
            oldest=max((page.number("issuer_oldest_line_seconds", number) for page in here.values()), default=0.0),
            waiting=broker_state.waiting_of(pages, number),
            uncounted=best.number("issuer_uncounted_seconds", number),
            journals=best.number("issuer_journal_bytes", number),
            free=min(free) if free and not serving else best.first(FREE, partition=str(number)),
            began=best.number("issuer_host_ready_time_seconds", number),
            start=best.number("issuer_host_start_seconds", number),
            is_refusing=past.is_refusing(),
        )

    def note_serving(self, number: int, past: PartitionPast, serving: str, now: float, clock: float) -> None:
        """Notes who serves a partition, and since when nobody does."""
        if serving and past.serving and serving != past.serving:
            silent = "" if past.unserved_since is None else f", unserved for {now - past.unserved_since:.0f} s"
            self.change(clock, f"partition {number}: {past.serving} → {serving}{silent}")
        elif serving and past.unserved_since is not None and past.serving:
            self.change(clock, f"partition {number}: {serving} serves again, after {now - past.unserved_since:.0f} s")
        past.serving = serving or past.serving
        if serving:
            past.unserved_since = None
        elif past.unserved_since is None:
            past.unserved_since = now


FREE = "issuer_journal_disk_free_bytes"


def form_of(page: FiguresText) -> Form:
    if page.has(SERVING):
        return Form.NODE
    if page.has(GATEWAY_UP):
        return Form.GATEWAY
    return Form.BRIDGE if page.has(HAS_HOST) else Form.BROKER


def serves(page: FiguresText, number: int) -> bool:
    """Whether a source serves a partition."""
    return bool(page.number(SERVING if page.has(SERVING) else HAS_HOST, number))


def follows(page: FiguresText, number: int) -> bool:
    """Whether a source can take a partition over: it has a connection to the broker, or needs none."""
    return page.first(CONNECTED, partition=str(number)) != 0


def behind_of(here: Mapping[str, FiguresText], serving: str, followers: Iterable[str], number: int) -> Optional[int]:
    """Returns how many messages of the stream the last of the followers lacks; None if that isn't known."""
    read = [int(value) for name in followers if (value := here[name].first(READ, partition=str(number))) is not None]
    first = here[serving].first(READ, partition=str(number)) if serving else None
    return None if first is None or not read else max(0, int(first) - min(read))


READ = "issuer_stream_read_offset"
STOP_REASON = "issuer_partition_stop_reason"
