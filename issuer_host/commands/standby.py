"""Keeps a standby: has a primary's records taken into journals of this machine, and goes on after what passes.

usage: standby [--begin] [--program PATH] [--last-run FILE] --config FILE --journal NAME -- COMMAND ..

  standby --config FILE --journal NAME -- ssh -o ServerAliveInterval=5 PRIMARY issuer-follow --journal NAME

COMMAND writes the feed. It gets two more words, `--from` and how many records of each shard are here, as 0:17,1:3. If
it ends, it is started again a second later, from what is here then.

--begin     creates the journals, once, as issuer-run does
--program   another program than the proved one
--last-run  a file outside the journals' folder that says which files the last run had: others are refused

The program's command `standby` takes the feed, by issuer-run. A run that takes nothing for a minute, doesn't end, or
can't see its journals any more is killed, and another one begins.

It ends with 0 at SIGTERM or SIGINT, once the run has taken what it has. It ends with a run's status if a person has to
act: `issuer-run --help` and issuer(1) have them; with 78 too if the journals were moved or replaced.
"""
import asyncio
import contextlib
import os
import re
import signal
import subprocess
from collections.abc import Sequence
from typing import NamedTuple, Optional

from issuer_host.facts.troubles import Level, say
from issuer_host.facts.service_words import ServiceWords
from issuer_host.facts.statuses import NOT_AGAIN, Status, meaning_of
from issuer_host.host.asyncio_loop import AsyncioLoop
from issuer_host.host.command import INPUT, StartOptions, command_of
from issuer_host.host.feed_run import FeedRun
from issuer_host.host.lifecycle import FIRST_DELAY, LAST_DELAY
from issuer_host.telling.service_manager import Readiness, notify

NAME = "standby"
# With these a run ends in the same way until a person has acted.
NEED_A_PERSON = (*NOT_AGAIN, Status.BAD_FEED)
# How soon the feed's command is started again, and how long it may take to end once it is told to.
FEED_SECONDS, FEED_END_SECONDS = 1.0, 5.0
# A run that has as many lines as may wait is looked at so often.
ROOM_SECONDS = 0.02
TICK_SECONDS = 1.0
PIECE = 1 << 16
# What a run writes of a shard at its end.
COUNT = re.compile(r"([0-9]+) ([0-9]+)")


class StandbyOptions(NamedTuple):
    """The words of the command."""

    config: str
    journal: str
    start: StartOptions
    # What writes the feed.
    feed: "list[str]"

    def command(self, begins: bool) -> "list[str]":
        """The command of a run."""
        start = self.start if begins else self.start._replace(begin="")
        return command_of("standby", self.config, self.journal, "--feed", INPUT, start=start)


class RunEnd(NamedTuple):
    """How a run ended: its status, or none if it was killed, and what it said."""

    status: Optional[int]
    said: Sequence[str]
    needs_person: bool = False

    @property
    def counts(self) -> Optional[str]:
        """How many records of each shard are here, as `--from` has them; None if the run didn't end in order."""
        found = [COUNT.fullmatch(line) for line in self.said]
        if self.status != Status.OK or not all(found):
            return None
        return ",".join(f"{it[1]}:{it[2]}" for it in found if it)


class FeedCommand:
    """A run of the command that writes the feed, with all that it starts itself."""

    def __init__(self, process: asyncio.subprocess.Process) -> None:
        assert process.stdout is not None
        self.process, self.output = process, process.stdout
        self.unread = b""

    @classmethod
    async def start(cls, words: Sequence[str]) -> "FeedCommand":
        pipe, none = subprocess.PIPE, subprocess.DEVNULL
        made = await asyncio.create_subprocess_exec(*words, stdin=none, stdout=pipe, start_new_session=True)
        return cls(made)

    async def lines(self) -> "Optional[list[bytes]]":
        """The next whole lines; None at the end, where a torn line is no line."""
        piece = await self.output.read(PIECE)
        *whole, self.unread = (self.unread + piece).split(b"\n")
        return whole if piece else None

    async def end(self) -> int:
        """Ends it and what it has started, and returns its status."""
        for number in (signal.SIGTERM, signal.SIGKILL):
            with contextlib.suppress(ProcessLookupError):
                os.killpg(self.process.pid, number)
            with contextlib.suppress(asyncio.TimeoutError):
                # (its pipe is closed once all is read)
                await asyncio.wait_for(asyncio.gather(self.output.read(), self.process.wait()), FEED_END_SECONDS)
                break
        return await self.process.wait()


class KeptStandby:
    """The standby of this machine, one run after another."""

    def __init__(self, loop: asyncio.AbstractEventLoop, options: StandbyOptions) -> None:
        self.loop, self.options = loop, options
        self.runs = FeedRun(AsyncioLoop(loop), options.command(True), options.journal, self)
        self.run_end: "asyncio.Future[RunEnd]" = loop.create_future()
        self.stopped = asyncio.Event()
        self.readiness = Readiness(NAME)
        # What goes on, for the service manager.
        self.state = "begins"

    # What the run comes to

    def run_ended(self, status: int, said: Sequence[str]) -> None:
        if status != Status.OK:
            last = said[-1] if said else "without a last line"
            level = Level.ERROR if status in NEED_A_PERSON else Level.WARNING
            say(NAME, level, f"the run over {self.options.journal} ended with {status}, {last}: {meaning_of(status)}")
        self.run_end.set_result(RunEnd(status, said, status in NEED_A_PERSON))

    def run_killed(self, why: str, needs_person: bool) -> None:
        say(
            NAME,
            Level.ERROR if needs_person else Level.WARNING,
            f"the run over {self.options.journal} is killed: {why}",
        )
        self.run_end.set_result(RunEnd(Status.REFUSED if needs_person else None, (), needs_person))

    # From the first run to the end

    async def keep(self) -> int:
        """Keeps the standby until it is stopped, or a person has to act. Returns the status."""
        for number in (signal.SIGTERM, signal.SIGINT):
            self.loop.add_signal_handler(number, self.stopped.set)
        self.tick()
        counts: Optional[str] = None
        delay = 0.0
        while not self.stopped.is_set():
            end = await self.feed(counts) if counts is not None else await self.count()
            if end.needs_person:
                assert end.status is not None
                return Status.USAGE if end.status == Status.WORDS else end.status
            was_fed, counts = counts is not None, end.counts
            delay = 0.0 if counts is not None else min(max(2 * delay, FIRST_DELAY), LAST_DELAY)
            if counts is not None:
                # (the journals are there from now on)
                self.runs.command = self.options.command(False)
                self.readiness.tell()
            await self.pause(FEED_SECONDS if was_fed else delay)
        return Status.OK

    async def count(self) -> RunEnd:
        """A run without lines: it loads the journals, and says how many records they have."""
        self.state = "loads the journals"
        if not self.begin_run():
            return RunEnd(None, ())
        self.runs.close()
        return await self.run_end

    async def feed(self, counts: str) -> RunEnd:
        """A run that gets the feed from these records on, until either of them ends."""
        self.state = f"is fed from {counts} on"
        try:
            source = await FeedCommand.start([*self.options.feed, "--from", counts])
        except OSError as fault:
            say(NAME, Level.WARNING, f"{self.options.feed[0]} can't be started: {fault.strerror}")
            return RunEnd(Status.OK, [it.replace(":", " ") for it in counts.split(",")])
        is_begun = self.begin_run()
        if is_begun:
            await self.pass_on(source)
        has_ended = source.process.returncode is not None or source.output.at_eof()
        status = await source.end()
        if status and has_ended:
            say(NAME, Level.WARNING, f"{self.options.feed[0]} ended with {status}")
        if not is_begun:
            return RunEnd(None, ())
        self.state = "takes what came"
        self.runs.close()
        return await self.run_end

    def begin_run(self) -> bool:
        self.run_end = self.loop.create_future()
        try:
            self.runs.begin()
        except OSError as fault:
            say(NAME, Level.WARNING, f"no run can be started: {fault.strerror}")
            return False
        return True

    async def pass_on(self, source: FeedCommand) -> None:
        """Gives the run what comes, until the feed ends, the run ends or is full, or this is stopped."""
        stopped = self.loop.create_task(self.stopped.wait())
        while self.goes_on():
            coming = self.loop.create_task(source.lines())
            await asyncio.wait((coming, self.run_end, stopped), return_when=asyncio.FIRST_COMPLETED)
            lines = await coming if coming.done() else None
            coming.cancel()
            if lines is None:
                break
            for line in lines if self.goes_on() else ():
                self.runs.put(line)
            self.runs.flush()
            while self.goes_on() and not self.runs.has_room():
                await asyncio.sleep(ROOM_SECONDS)
        stopped.cancel()

    def goes_on(self) -> bool:
        return self.runs.takes_lines and not self.stopped.is_set()

    async def pause(self, seconds: float) -> None:
        """Waits so long, or until this is stopped."""
        with contextlib.suppress(asyncio.TimeoutError):
            await asyncio.wait_for(self.stopped.wait(), seconds)

    def tick(self) -> None:
        self.loop.call_later(TICK_SECONDS, self.tick)
        self.readiness.look(self.state)


def options_of(words: Sequence[str]) -> StandbyOptions:
    parser = ServiceWords(NAME, __doc__)
    parser.add_argument("--begin", action="store_true")
    parser.add_argument("--program", default="")
    parser.add_argument("--last-run", default="")
    parser.add_argument("--config", required=True)
    parser.add_argument("--journal", required=True)
    parser.add_argument("feed", nargs="+")
    given = parser.parse_args(words)
    start = StartOptions(given.program, "--begin" if given.begin else "", given.last_run)
    return StandbyOptions(given.config, given.journal, start, given.feed)


async def keep(options: StandbyOptions) -> int:
    status = await KeptStandby(asyncio.get_running_loop(), options).keep()
    notify(NAME, "STOPPING=1")
    return status


def main(words: Sequence[str]) -> int:
    return asyncio.run(keep(options_of(words)))
