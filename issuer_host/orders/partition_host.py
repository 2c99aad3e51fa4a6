"""A partition's host with all that is put to it: requests, accounts' declines and orders. It knows no broker."""
import signal
from collections.abc import Callable
from typing import Optional, Protocol

from issuer_host.facts.request_lines import DECIDE
from issuer_host.facts.statuses import Status
from issuer_host.files.audit import Audit
from issuer_host.host.event_loop import Loop
from issuer_host.host.line_host import AnswerPacer, HostFigures, HostSettings, LineHost
from issuer_host.host.lines import Entry
from issuer_host.host.retry_policy import FullDisk, RetryPolicy
from issuer_host.orders.declines import Declining, decline_of
from issuer_host.orders.in_order import CardWorks, Work
from issuer_host.orders.intent_log import WorkFile
from issuer_host.orders.order import Order, Ordered
from issuer_host.orders.probe import Prober
from issuer_host.orders.server import OrderSocket
from issuer_host.orders.texts import NOT_DONE

MAX_BODY = 4095
# Who asks for a request that isn't an account's decline, in the log.
SWITCH = "switch"


class Requester(Protocol):
    """Who has the requests, and sends their answers."""

    def send(self, entry: Entry, text: str) -> None:
        """Sends a request's answer."""

    def drop(self, entry: Entry) -> None:
        """No answer to a request comes any more."""

    def is_current(self, entry: Entry) -> bool:
        """Whether somebody still waits for a request's answer."""


class PartitionKeeper(Protocol):
    """Who runs the partition."""

    def host_is_ready(self) -> None:
        """The host has loaded the journals, or another one serves the partition."""

    def host_is_idle(self) -> None:
        """The host ended, or has nothing to do."""

    def host_ended(self) -> None:
        """The host ended, whatever its status."""

    def give_up(self, status: int) -> None:
        """A new start ends with this status too, until a person has acted or what fails has passed."""

    def why_no_order(self) -> str:
        """Why no order is taken now; nothing if orders are."""


class WorkFigures(HostFigures, Protocol):
    """Counts the work that a host is given, beside its runs."""

    def answered(self, answer: str, seconds: Optional[float]) -> None:
        """A line was answered. It has no time if it is put again."""

    def ordered(self, kind: str) -> None:
        """A line of an order came to this."""

    def declined(self) -> None:
        """A request came with an account's decline."""

    def cards_restoring(self, count: int) -> None:
        """So many cards wait for the status that they had before an account's decline."""

    def look_at_disk(self) -> None:
        """Measures the journals and their disk."""


def is_request(body: bytes) -> bool:
    """Whether a message is a line of the form A."""
    return body.startswith(DECIDE.encode() + b" ") and b"\n" not in body and len(body) <= MAX_BODY


class PartitionHost:
    """The host, and what is put to it."""

    def __init__(
        self,
        loop: Loop,
        settings: HostSettings,
        figures: WorkFigures,
        requester: Requester,
        keeper: PartitionKeeper,
        pacer: Optional[AnswerPacer] = None,
        file: Optional[WorkFile] = None,
    ) -> None:
        self.loop, self.figures = loop, figures
        self.requester, self.keeper = requester, keeper
        self.retries = RetryPolicy(FullDisk(settings.journal, settings.name).note)
        self.audit = Audit(settings.journal, settings.name, later=settings.log_later)
        self.hosting = LineHost(loop, settings, self, self, figures, pacer)
        notes = file or WorkFile(settings.journal, settings.name)
        self.works = CardWorks(loop, self.hosting, notes, self.retries, self.work_answered, self.release)
        self.orders = OrderSocket(loop, settings.orders, self.has_host, self.order, settings.name)
        self.orders.on_probe = Prober(self.keeper, self.works).put
        # Whether requests come here: without them a host ends when it is idle.
        self.is_served = self.is_stopping = False

    # Requests

    def take(self, entry: Entry) -> bool:
        """Takes a message. Returns whether it is a request or an account's decline."""
        self.is_served = True
        is_known = is_request(entry.line) or decline_of(entry.line) is not None
        if is_known:
            self.put(entry)
        return is_known

    def put(self, entry: Entry) -> None:
        """Puts a request to the host, or the three lines of an account's decline."""
        if b"\n" not in entry.line:
            self.hosting.add(entry)
            return
        decline = decline_of(entry.line)
        if decline is None:
            # (several lines of another form would get several answers)
            self.requester.drop(entry)
            return
        self.figures.declined()
        self.works.add(Declining(decline, entry, self.requester))

    def abandon(self) -> None:
        """Answers nobody any more: requests come again, here or elsewhere. The host ends."""
        self.is_served = False
        self.works.abandon("the connection to the broker is lost: ask again with the same number")
        self.hosting.abandon()

    def kill(self) -> None:
        """Answers nobody any more, and kills the host, which has ended when this returns."""
        self.is_served = False
        self.works.abandon("another machine may serve the partition now: ask again with the same number")
        self.hosting.kill_now(-signal.SIGKILL)

    def may_pass(self, entry: Entry) -> bool:
        """Whether a request may be put now: somebody waits for it, and there is no work on its card."""
        if entry.is_over:
            self.requester.drop(entry)
            return False
        return not self.works.cards or self.works.may_pass(entry)

    def answered(self, entry: Entry, text: str) -> None:
        """Takes the host's answer: it is sent, or its line is held for a moment and put again."""
        seconds = self.retries.seconds_of(text, entry.began)
        if seconds is None:
            self.audit.answered(SWITCH, DECIDE, entry.pan, text)
            self.requester.send(entry, text)
        else:
            self.figures.answered(text, None)
            self.loop.call_later(seconds, lambda: self.put_again(entry))
        if self.works.before:
            self.works.answered_entry(entry)

    def put_again(self, entry: Entry) -> None:
        if self.requester.is_current(entry):
            self.hosting.add(entry)
        else:
            self.requester.drop(entry)

    # Orders

    def order(self, order: Order, uid: int, reply: Callable[[str], object]) -> None:
        def told(text: str) -> None:
            self.figures.ordered(text.partition(" ")[0])
            reply(text)

        why = self.keeper.why_no_order()
        if why:
            told(f"{NOT_DONE} done: {why}")
            return
        self.works.add(Ordered(order, uid, told))

    def work_answered(self, work: Work, line: str, text: str) -> None:
        self.audit.answered(work.by, line, work.pan, text, work.uid, work.number)
        if work.uid is not None:
            # (the reply to an order leaves at once)
            self.audit.flush()

    # The host

    def has_host(self) -> bool:
        """Whether the partition is served here."""
        return self.hosting.is_running and self.is_served

    def loaded(self) -> None:
        self.works.loaded()
        self.keeper.host_is_ready()

    def records_read(self) -> None:
        self.works.ready()
        self.release()

    def release(self) -> None:
        """Ends a host that gets no requests: another bridge may need the journals."""
        if not self.is_served and not self.works and self.hosting.is_idle():
            self.hosting.close()
        self.keeper.host_is_idle()

    def host_ended(self, status: int) -> None:
        self.keeper.host_ended()
        if status == Status.JOURNAL_CLOSED and not self.is_served:
            self.works.abandon("another bridge, or another program, has the journals: order there")
            self.keeper.host_is_ready()
        self.works.host_ended()
        self.keeper.host_is_idle()

    def gave_up(self, status: int) -> None:
        self.keeper.give_up(status)

    # Time, and the end

    def look(self) -> None:
        self.figures.cards_restoring(self.works.restoring())
        self.figures.look_at_disk()
        self.release()

    def stop(self) -> None:
        """Takes no more orders, and begins no more work."""
        self.is_stopping = True
        self.orders.end()
        self.works.stop()

    def has_ended(self) -> bool:
        """Whether a host that is to stop has; it is stopped once no work is under way."""
        if not self.works:
            self.hosting.stop()
        return not self.hosting.is_running

    def end(self) -> None:
        """Kills a host that hasn't ended in time."""
        self.stop()
        self.audit.flush()
        self.hosting.kill_now(-signal.SIGKILL)
