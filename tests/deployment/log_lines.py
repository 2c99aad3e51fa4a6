"""What services say in their logs: troubles once at their beginning and once at their end, by turns too."""
import contextlib
import errno
import glob
import importlib.util
import io
import itertools
import os
import re
import unittest.mock
from typing import Any

from checks import Tally, check_of
from issuer_host.facts.paths import HOME
from issuer_host.facts.troubles import Level, Troubles
from issuer_host.files.audit import Audit
from issuer_host.host.retry_policy import RetryPolicy
from runs import new_folder


# Where lines of services are written; and what there is a command, whose lines a person reads at once.
FOLDERS = ("broker", "files", "gateway", "host", "orders", "replication", "telling")
TO_PERSONS = {
    *("orders/client.py", "orders/offline.py", "orders/units.py"),
    *(f"replication/{name}.py" for name in ("anew", "order", "probe", "replace")),
}
# A line that `tell` writes by itself, or what imports it for that.
BARE = re.compile(
    r"^from issuer_host.facts.refusal import .*\btell\b|(?<![\w.])tell\((?:NAME|name|self\.name)|\brefusal\.tell\("
)


def told(body: Any) -> "list[str]":
    """Returns the lines of the error output that a function writes."""
    with contextlib.redirect_stderr(io.StringIO()) as said:
        body()
    return said.getvalue().splitlines()


def a_trouble_is_told_at_both_ends(tally: Tally) -> None:
    """A trouble is a line when it begins, with its level and what to do, and one when it has ended."""
    clock = itertools.count(10.0)

    def lasts() -> None:
        troubles = Troubles("node: partition 3", lambda: next(clock))
        troubles.ends("the disk is full", "there is room")
        for _ in range(5):
            troubles.begins("the disk is full", "make room", Level.ERROR)
            troubles.begins("no seal is written")
        troubles.ends("the disk is full", "there is room")
        troubles.ends("the disk is full", "there is room")
        troubles.begins("the disk is full", "make room", Level.ERROR)

    first = "node: partition 3: error: the disk is full: make room"
    ended = "node: partition 3: notice: there is room, after 2 s"
    seals = "node: partition 3: warning: no seal is written"
    tally.expect(told(lasts), [first, seals, ended, first], "the lines")


def two_reasons_by_turns_are_told_once(tally: Tally) -> None:
    """A partition that is away for two reasons by turns tells each once, and again after it was well."""
    if importlib.util.find_spec("pika") is None:
        print("left out: two_reasons_by_turns_are_told_once: python3-pika isn't installed")
        return
    from issuer_host.replication.state_teller import StateTeller

    def turns() -> None:
        teller = StateTeller("node: partition 1", unittest.mock.MagicMock())
        for _ in range(50):
            teller.tell("reading", "no stream is bound")
            teller.tell("away", "(404) NOT_FOUND")
        teller.tell("reading")
        teller.tell("waiting")
        teller.tell("away", "(404) NOT_FOUND")
        teller.tell("stopped", "the stream lost its end")

    wanted = ["warning: reading: no stream is bound", "warning: away: (404) NOT_FOUND", "notice: reading"]
    wanted += ["notice: waiting", "warning: away: (404) NOT_FOUND", "error: stopped: the stream lost its end"]
    tally.expect(told(turns), [f"node: partition 1: {line}" for line in wanted], "the lines")


def a_full_disk_is_known_by_answers(tally: Tally) -> None:
    """Answers say that a disk takes no record, and that it does again; who asks for neither is told nothing."""
    found: "list[bool]" = []
    policy = RetryPolicy(found.append)
    for answer in ("fresh 0 1 yes", "refused 15", "refused 15", "refused 12", "kept 0 1 yes", "refused 15"):
        policy.seconds_of(answer, 0.0)
    tally.expect(found, [True], "after refusals")
    # (a node forgets since when: another machine serves)
    policy.full_since = None
    for answer in ("kept 0 1 yes", "fresh 0 2 yes", "fresh 0 3 yes", "refused 9", "refused 15"):
        policy.seconds_of(answer, 0.0)
    tally.expect(found, [True, False, True], "after records")


def a_log_that_is_not_written_is_told(tally: Tally) -> None:
    """A log of who did what that takes no line is a warning once, and a notice once it takes lines again."""
    with new_folder() as folder:
        audit = Audit(os.path.join(folder, "journal"), "bridge")

        def fails() -> None:
            with unittest.mock.patch("os.write", side_effect=OSError(errno.ENOSPC, os.strerror(errno.ENOSPC))):
                for _ in range(3):
                    audit.answered("switch", "A", "", "refused 15")
            for _ in range(3):
                audit.answered("switch", "A", "", "refused 15")

        lines = told(fails)
        audit.close()
        path = os.path.join(folder, "journal.audit")
        first = f"bridge: warning: the log of who did what isn't written: {path}: No space left on device."
        tally.expect(len(lines), 2, f"the lines: {lines}")
        tally.holds(lines[0].startswith(first), f"the first line: {lines}")
        tally.holds(lines[1].startswith(f"bridge: notice: {path} is written again, after "), f"the last line: {lines}")


def modules_of_services() -> "list[str]":
    """Returns the modules by which a service writes lines, but for those of commands that talk to a person."""
    found = [os.path.join(HOME, "issuer_host", "commands", f"{name}.py") for name in ("bridge", "follow", "standby")]
    for folder in FOLDERS:
        paths = sorted(glob.glob(os.path.join(HOME, "issuer_host", folder, "*.py")))
        found += [path for path in paths if os.path.relpath(path, os.path.join(HOME, "issuer_host")) not in TO_PERSONS]
    return found


def each_line_of_a_service_has_a_level(tally: Tally) -> None:
    """No module of a gateway, a bridge, a node, a follower or a watcher writes a line without a level."""
    modules = modules_of_services()
    tally.holds(len(modules) > 110, f"only {len(modules)} modules")
    for path in modules:
        with open(path, encoding="utf-8") as text:
            bare = [line.strip() for line in text if BARE.search(line)]
        tally.expect(bare, [], f"{os.path.relpath(path, HOME)}: lines without a level")


CHECKS = [
    check_of(body)._replace(may_be_empty=body is two_reasons_by_turns_are_told_once)
    for body in (
        a_trouble_is_told_at_both_ends,
        two_reasons_by_turns_are_told_once,
        a_full_disk_is_known_by_answers,
        a_log_that_is_not_written_is_told,
        each_line_of_a_service_has_a_level,
    )
]
