"""How deploy/standby keeps a standby: what it goes on after, and at what it ends."""
import asyncio
import contextlib
import io
import os
import signal
import subprocess
import sys
import threading
import time
import unittest.mock
from collections.abc import Callable, Iterator
from typing import Optional

from checks import Tally, check_of
from deployment.following import Journals, RECORDS, new_journals
from deployment.running import Host, new_host
from issuer_host.commands import standby
from issuer_host.commands.standby import KeptStandby, options_of
from issuer_host.facts.journals import VERSION_LINE
from issuer_host.facts.paths import HOME
from issuer_host.facts.statuses import Status
from issuer_host.host import feed_run
from issuer_host.host.lifecycle import Limits
from runs import SHARDS, content_of

# How long something may take on a busy machine, and for how long journals are away.
SECONDS, AWAY_SECONDS = 120.0, 2.0
# How long a run may hang that has two seconds.
HANG_SECONDS = 40.0
# Limits of a run that hangs, so short that a check needn't wait for a minute.
SHORT = Limits(loading=2.0, answering=2.0, closing=2.0)
# A record of a card that no configuration here has.
OF_NO_CARD = "s 4999999999999999ffff 00 1\n"


def comes(holds: Callable[[], bool]) -> bool:
    """Whether a fact comes to hold."""
    until = time.monotonic() + SECONDS
    while not holds() and time.monotonic() < until:
        time.sleep(0.02)
    return holds()


class Keeping:
    """A run of deploy/standby over a host's journals, which follows a primary's."""

    def __init__(self, tally: Tally, host: Host, primary: Journals, *words: str) -> None:
        self.tally, self.host, self.primary = tally, host, primary
        self.said = ""
        feed = [sys.executable, "-B", os.path.join(HOME, "deploy/follow"), "--journal", primary.name]
        command = [os.path.join(HOME, "deploy/standby"), "--begin", *host.program, *host.files(), *words, "--", *feed]
        tally.note_run(command)
        self.running = subprocess.Popen(command, stderr=subprocess.PIPE, text=True)
        threading.Thread(target=self.read, daemon=True).start()

    def read(self) -> None:
        assert self.running.stderr is not None
        for line in self.running.stderr:
            self.said += line

    def records(self) -> list[str]:
        """The records of the standby's first journal."""
        try:
            return content_of(self.host.journal(0)).splitlines(keepends=True)[1:]
        except FileNotFoundError:
            return []

    def has(self, count: int, what: str) -> None:
        """It comes to have so many of the primary's records."""
        comes(lambda: len(self.records()) >= count)
        self.tally.expect(self.records(), RECORDS[:count], f"{what}: the records, with {self.said[-300:]!r}")

    def child(self, word: str) -> int:
        """Its process that has a word among its arguments; 0 if there is none."""
        with open(f"/proc/{self.running.pid}/task/{self.running.pid}/children", encoding="ascii") as text:
            for child in text.read().split():
                with contextlib.suppress(OSError), open(f"/proc/{child}/cmdline", "rb") as words:
                    if word.encode() in words.read().split(b"\0"):
                        return int(child)
        return 0

    def kill(self, word: str) -> int:
        comes(lambda: self.child(word) > 0)
        found = self.child(word)
        os.kill(found, signal.SIGKILL)
        return found

    def ends(self, status: int, said: str) -> None:
        self.tally.expect(self.running.wait(SECONDS), status, f"its status, with {self.said!r}")
        self.tally.holds(comes(lambda: said in self.said), f"{said!r} is said: {self.said!r}")


@contextlib.contextmanager
def kept(tally: Tally, *words: str) -> Iterator[Keeping]:
    """A standby of a primary that has three records, of which two are durable for certain."""
    with new_host(tally) as host, new_journals() as primary:
        primary.append(VERSION_LINE + "".join(RECORDS[:3]))
        found = Keeping(tally, host, primary, *words)
        try:
            yield found
        finally:
            with contextlib.suppress(ProcessLookupError):
                found.running.kill()
            found.running.wait()


def goes_on_after_what_passes(tally: Tally) -> None:
    """A standby takes what becomes durable, also after a kill of its run and of its feed; SIGTERM ends it with 0."""
    with kept(tally) as keeping:
        keeping.has(2, "at first")
        keeping.primary.append(RECORDS[3])
        keeping.has(3, "one more")
        for count, word in ((4, "standby"), (5, "--from")):
            keeping.kill(word)
            keeping.primary.append(RECORDS[count])
            keeping.has(count, f"after a kill of its process with the word {word}")
        keeping.tally.holds("ended by signal 9" in keeping.said, f"it says what was killed: {keeping.said!r}")
        keeping.running.send_signal(signal.SIGTERM)
        keeping.ends(Status.OK, "")
        shown = keeping.host.start()
        tally.expect(shown.returncode, Status.OK, f"the status of a start over its journals: {shown.stderr}")


def ends_where_a_person_has_to_act(tally: Tally) -> None:
    """A record that may not come next ends it with 11, and so do journals that were replaced, with 78."""
    with kept(tally) as keeping:
        keeping.has(2, "at first")
        keeping.primary.append(OF_NO_CARD + RECORDS[4])
        keeping.ends(Status.BAD_FEED, "stop 11")
    with kept(tally) as keeping:
        keeping.has(2, "at first")
        path = keeping.host.journal(0)
        # (a look has to have seen the first one)
        time.sleep(3 * feed_run.LOOK_SECONDS)
        os.rename(path, f"{path}.moved")
        with open(path, "w", encoding="ascii") as text:
            text.write(VERSION_LINE)
        keeping.ends(Status.REFUSED, "moved or replaced")


def bears_a_folder_that_is_away(tally: Tally) -> None:
    """Journals that can't be seen for two seconds end no run."""
    with kept(tally) as keeping:
        keeping.has(2, "at first")
        comes(lambda: keeping.child("standby") > 0)
        run, folder = keeping.child("standby"), keeping.host.folder
        # (a run that wasn't looked at yet has no journals that could be missed)
        time.sleep(2 * feed_run.LOOK_SECONDS)
        os.rename(folder, f"{folder}.away")
        time.sleep(AWAY_SECONDS)
        os.rename(f"{folder}.away", folder)
        keeping.primary.append(RECORDS[3])
        keeping.has(3, "with the folder back")
        tally.expect(keeping.child("standby"), run, "the process of the run")


def mark_of(host: Host) -> str:
    """The file that says that a run hangs, or has hung."""
    return os.path.join(host.folder, "hung")


def program_that_hangs(host: Host, way: str) -> str:
    """A program whose first run hangs in a way, and whose others are right."""
    path, mark = os.path.join(host.folder, "program"), mark_of(host)
    ways = {
        "takes nothing": "exec sleep 600",
        "doesn't end": "cat > /dev/null; exec sleep 600",
    }
    lines = ["#!/bin/sh", f'if [ -e {mark} ]; then exec {host.tally.program} "$@"; fi', f"touch {mark}", ways[way], ""]
    with open(path, "w", encoding="utf-8") as text:
        text.write("\n".join(lines))
    os.chmod(path, 0o755)
    return path


def kills_a_run_that_hangs(tally: Tally) -> None:
    """A run that doesn't end, or takes none of a few lines, is killed, and the next one takes all."""
    rows = (("doesn't end", False, "it doesn't end"), ("takes nothing", True, "silent for too long"))
    for way, is_fed, said in rows:
        with new_host(tally) as host, new_journals() as primary:
            primary.append(VERSION_LINE + "".join(RECORDS[:3]))
            host.begun()
            words = ["--program", program_that_hangs(host, way), *host.files(), "--"]
            feed = [sys.executable, "-B", os.path.join(HOME, "deploy/follow"), "--journal", primary.name]
            told = io.StringIO()
            counts = ",".join(f"{shard}:0" for shard in range(SHARDS)) if is_fed else None
            with contextlib.redirect_stderr(told):
                is_first_killed = asyncio.run(keep_until(words + feed, host, counts))
            tally.holds(is_first_killed, f"a run that {way} runs on")
            tally.holds(said in told.getvalue(), f"a run that {way}: what is told: {told.getvalue()!r}")
            records = content_of(host.journal(0)).splitlines(keepends=True)[1:]
            tally.expect(records, RECORDS[:2], f"the records after a run that {way}")


async def keep_until(words: list[str], host: Host, counts: Optional[str]) -> bool:
    """Keeps a standby until it has two records. Its first run hangs, and with counts it gets the feed.

    Returns whether that run was killed.
    """
    kept = KeptStandby(asyncio.get_running_loop(), options_of(words))
    began, mark = time.monotonic(), mark_of(host)
    # (a busy machine is slow: time begins once the first run hangs, and the runs after it have the limits of all runs)
    kept.runs.clock = lambda: time.monotonic() if os.path.exists(mark) else began
    with unittest.mock.patch.object(feed_run, "limits_over", lambda _: SHORT):
        first = kept.feed(counts) if counts is not None else kept.count()
        try:
            is_killed = (await asyncio.wait_for(first, HANG_SECONDS)).status is None
        except asyncio.TimeoutError:
            kept.runs.kill()
            return False
    keeping = asyncio.ensure_future(kept.keep())
    until = time.monotonic() + SECONDS
    while time.monotonic() < until and content_of(host.journal(0)).count("\n") < 3:
        await asyncio.sleep(0.05)
    kept.stopped.set()
    await keeping
    return is_killed


def refuses_other_words(tally: Tally) -> None:
    """Words that are no command end it with 64, after which no unit is started again."""
    rows: list[list[str]] = [[], ["--config", "c", "--journal", "j"], ["--config", "c", "--", "true"]]
    command = os.path.join(HOME, "deploy/standby")
    for words in rows:
        ran = subprocess.run([command, *words], capture_output=True, text=True, check=False)
        tally.expect(ran.returncode, Status.USAGE, f"the status with {words}: {ran.stderr}")
        said = f"{standby.NAME}: the following arguments are required"
        tally.holds(said in ran.stderr, f"what it says: {ran.stderr}")


CHECKS = [
    check_of(body)
    for body in (
        goes_on_after_what_passes,
        ends_where_a_person_has_to_act,
        bears_a_folder_that_is_away,
        kills_a_run_that_hangs,
        refuses_other_words,
    )
]
