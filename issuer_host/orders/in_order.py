"""Work on one card at a time: lines of the card that are put one after another, while its other lines wait.

There are two kinds of work: an operator's order, and an account's decline. Work begins when no line of its card is
with the host, and a line of it is put when the one before has its answer. So the card's records have them as
neighbours, whatever is in flight, and with several callers too. Lines of other cards go on.

A host that ends before an answer leaves it open whether the line is recorded. So nothing is put again: all work on hand
begins anew with the next host, once the file of begun work was settled against the journals (`intent_log`).
"""
import collections
import time
from collections.abc import Callable, Generator
from typing import NamedTuple, Optional, Union

from issuer_host.facts.answers import RECORDED, kind_of
from issuer_host.facts.masks import name_of_card
from issuer_host.facts.troubles import Level, say
from issuer_host.files.card_records import CardRecords
from issuer_host.host.event_loop import Loop
from issuer_host.host.line_host import LineHost
from issuer_host.host.lines import Entry, Line
from issuer_host.host.retry_policy import RetryPolicy
from issuer_host.orders.intent_log import Begun, WorkFile, restoring_line


# Why an order isn't done any more.
ENDS = "who takes the orders ends"


class Put(NamedTuple):
    """A line that work puts next."""

    text: str
    # Whether it is put until it is recorded, as what gives a card its status back.
    is_lasting: bool = False


class Ledger(NamedTuple):
    """What work looks up and notes: the cards' records, and the file of begun work."""

    records: CardRecords
    file: WorkFile
    # Who tells of what fails.
    name: str


Steps = Generator[Put, str, None]


class Work:
    """Work on a card."""

    # What the log says of who does it: a name, the user of the peer that asked for it, and its number.
    by = "bridge"
    uid: Optional[int] = None
    number = ""

    def __init__(self, pan: str) -> None:
        self.pan = pan

    def steps(self, ledger: Ledger) -> Steps:
        """The lines of the work, each of which is sent its answer. Each host that it begins with gets its own."""
        raise NotImplementedError

    def drop(self, why: str) -> None:
        """The work isn't done here, or no more: what was begun is settled by the next start."""


class Restoring(Work):
    """What is left of a decline that was interrupted."""

    def __init__(self, begun: Begun) -> None:
        super().__init__(begun.pan)
        self.begun = begun

    def steps(self, ledger: Ledger) -> Steps:
        yield from restore(self.begun, ledger)


def restore(begun: Begun, ledger: Ledger) -> Steps:
    """The line that gives a card the status back that it had before a decline, unless it has it."""
    line = restoring_line(begun, ledger.records)
    answer = (yield Put(line, True)) if line else ""
    if line and kind_of(answer).word not in RECORDED:
        say(
            ledger.name,
            Level.WARNING,
            f"{name_of_card(*begun.card)} can't get its status {begun.before} back: {answer}",
        )
        return
    ledger.file.end(begun.number, answer)


class Running:
    """Work whose lines are put."""

    def __init__(self, work: Work, steps: Steps) -> None:
        self.work = work
        self.steps = steps
        self.put = Put("")
        # The line that the host has; None while it waits to be put again.
        self.line: Optional[Line] = None
        self.began = time.monotonic()


class CardWorks:
    """All work on cards. `on_answer` gets each answer to a line of work, and `on_idle` is called when all is done."""

    def __init__(
        self,
        loop: Loop,
        hosting: LineHost,
        file: WorkFile,
        retries: RetryPolicy,
        on_answer: Callable[[Work, str, str], object],
        on_idle: Callable[[], object],
    ) -> None:
        self.loop = loop
        self.hosting = hosting
        self.file = file
        self.retries = retries
        self.on_answer = on_answer
        self.on_idle = on_idle
        # By PAN: the work on a card, then what waits for it, in order.
        self.cards: dict[str, collections.deque[Union[Work, Entry]]] = {}
        # By PAN: lines of before its first work that have no answer yet.
        self.before: dict[str, set[Entry]] = {}
        self.running: dict[str, Running] = {}
        self.is_stopping = False

    def __len__(self) -> int:
        return len(self.cards)

    def restoring(self) -> int:
        """Returns how many cards get the status back that they had before a decline."""
        return sum(running.put.is_lasting for running in self.running.values())

    # Lines on their way to the host

    def may_pass(self, entry: Entry) -> bool:
        """Whether a line may go to the host now. Otherwise it is kept until the work on its card is done."""
        if not self.cards:
            return True
        pan = entry.pan
        if pan not in self.cards or entry in self.before.get(pan, ()):
            return True
        self.cards[pan].append(entry)
        return False

    def answered_entry(self, entry: Entry) -> None:
        """A line that isn't of work was answered."""
        if not self.before:
            return
        pan = entry.pan
        waits = self.before.get(pan, set())
        waits.discard(entry)
        if pan in self.before and not waits:
            del self.before[pan]
            self.begin(pan)

    # Work

    def add(self, work: Work) -> None:
        if self.is_stopping:
            work.drop(ENDS)
            return
        queue = self.cards.setdefault(work.pan, collections.deque())
        queue.append(work)
        if len(queue) > 1:
            return
        before = {entry for entry in self.hosting.lines.entries() if entry.pan == work.pan}
        if before:
            self.before[work.pan] = before
        self.begin(work.pan)

    def begin(self, pan: str) -> None:
        """Begins the first work on a card, if the host is ready and has no other line of the card."""
        if not self.hosting.is_ready():
            self.hosting.want()
            return
        work = self.cards[pan][0]
        if pan in self.before or pan in self.running or not isinstance(work, Work):
            return
        running = Running(work, work.steps(Ledger(self.hosting.reader.records, self.file, self.hosting.settings.name)))
        self.running[pan] = running
        self.go_on(running, None)

    def go_on(self, running: Running, answer: Optional[str]) -> None:
        """Takes the next step of work, which is done if there is none."""
        try:
            running.put = next(running.steps) if answer is None else running.steps.send(answer)
        except StopIteration:
            self.done(running.work.pan)
            return
        running.began = time.monotonic()
        self.file.when_noted(lambda: self.put(running))

    def put(self, running: Running) -> None:
        """Puts a line, unless its host ended meanwhile: then the work begins anew with the next one."""
        if self.running.get(running.work.pan) is running and self.hosting.is_ready():
            running.line = Line(running.put.text.encode("ascii"), lambda text: self.answered(running, text))
            self.hosting.put_now(running.line)

    def answered(self, running: Running, text: str) -> None:
        """Takes the answer to a line of work."""
        if self.running.get(running.work.pan) is not running:
            return
        running.line = None
        self.on_answer(running.work, running.put.text, text)
        self.note(running.put.text, text)
        seconds = self.retries.seconds_of(text, running.began, running.put.is_lasting)
        if seconds is None:
            self.go_on(running, text)
        else:
            self.loop.call_later(seconds, lambda: self.put(running))

    def note(self, line: str, answer: str) -> None:
        """Notes what was recorded."""
        form, *words = line.split(" ")
        kind = kind_of(answer).word
        if kind in RECORDED and len(words) == 3:
            shard, index = answer.split(" ")[1:3]
            self.hosting.reader.records.note(form, (words[0], words[1]), words[2], int(shard), int(index))

    def done(self, pan: str) -> None:
        """The first work on a card is done: the lines that waited for it go on, up to the next work."""
        self.running.pop(pan, None)
        self.cards[pan].popleft()
        self.release(pan)
        if pan in self.cards:
            self.begin(pan)
        if not self.cards:
            self.on_idle()

    def release(self, pan: str) -> None:
        """Lets the lines before the first work on a card go to the host."""
        queue = self.cards[pan]
        entries = []
        while queue and isinstance(queue[0], Entry):
            entries.append(queue.popleft())
        if not queue:
            del self.cards[pan]
        elif entries:
            self.before[pan] = {entry for entry in entries if isinstance(entry, Entry)}
        for entry in entries:
            if isinstance(entry, Entry):
                self.hosting.add(entry)

    # The host

    def loaded(self) -> None:
        """A host has loaded the journals, and no line was put: what a decline left comes first on its card."""
        self.file.load()
        for begun in self.file.declines():
            queue = self.cards.setdefault(begun.pan, collections.deque())
            queue.appendleft(Restoring(begun))
            self.before.pop(begun.pan, None)

    def ready(self) -> None:
        """The journals were read: all work begins, once what was interrupted is settled."""
        self.file.settle_orders(self.hosting.reader.records)
        for pan in list(self.cards):
            self.begin(pan)

    def host_ended(self) -> None:
        """Nothing is put any more. Work that was begun begins anew, and what it noted is settled before."""
        self.running.clear()
        self.file.close()
        for pan, queue in list(self.cards.items()):
            while queue and isinstance(queue[0], Restoring):
                queue.popleft()
            self.release(pan)
        if self.cards:
            self.hosting.want()

    def abandon(self, why: str) -> None:
        """Drops all work, and the lines that wait for it: the broker delivers them again."""
        self.running.clear()
        self.before.clear()
        dropped = [work for queue in self.cards.values() for work in queue if isinstance(work, Work)]
        self.cards.clear()
        for work in dropped:
            work.drop(why)

    def stop(self) -> None:
        """Takes no more work, and drops what wasn't begun."""
        self.is_stopping = True
        for pan, queue in list(self.cards.items()):
            kept = [work for work in queue if pan in self.running and work is queue[0]]
            for work in queue:
                if isinstance(work, Work) and work not in kept:
                    work.drop(ENDS)
            self.cards[pan] = collections.deque(kept)
            if not kept:
                del self.cards[pan]
                self.before.pop(pan, None)
