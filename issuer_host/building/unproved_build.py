"""A build without proofs that answers one run: `rt try` makes it, and sets it limits."""
import os
import re
import select
import shutil
import subprocess
import tempfile
import time
from collections.abc import Sequence
from typing import Optional

from issuer_host.facts.commands import JOURNAL, OPTIONS
from issuer_host.facts.paths import HOME
from issuer_host.facts.statuses import Status
from issuer_host.launcher.causes import explained
from issuer_host.launcher.messages import complain, minutes, stop, tell
from issuer_host.launcher.program_run import Watch, run_program
from issuer_host.launcher.sources import TOP
from issuer_host.launcher.toolchain import toolchain

# How long a run may take, in seconds, and how much it may write: a limit of `rt try`.
SECONDS = 600
OUTPUT = "1 MiB"
WAIT_SECONDS = 60
# Lines of rt's on a run that ended: its two runners, and what it says of its own limits.
CHATTER = re.compile(r"(interpreter|checked|races): |run=|rt: ")
ENDED = re.compile(r"run=(?P<how>[a-z-]+)(?: status=(?P<status>\d+))?.* proved=no")
# What a run that was cut short left in the journals, by its command.
LEFT = {
    "serve": " What was answered until then is in the journals, and is answered `kept` by a later run.",
    "standby": " What was taken until then is in the journals, and a later run goes on from there.",
}
NO_LIMIT = "./issuer prove makes the program that has no such limit"
# Why no limit of `rt try` ended a run, by what it says.
CAUSES = {
    "fault": "the unproved build stopped at a fault",
    "no-answer": "the unproved build gave no answer",
    "none": "the program could not be built",
}
# Of what rt says of a run that it couldn't make or end, so many lines are passed on.
LAST_LINES = 20


class Build(Watch):
    """Says each minute that the build still runs: its output comes when it has ended."""

    def wait(self, source: int) -> None:
        began = time.monotonic()
        while not select.select([source], [], [], WAIT_SECONDS)[0]:
            tell(f"still building or running the unproved build, after {minutes(time.monotonic() - began)}")


def is_read_once(path: str) -> bool:
    """Whether a file can be read by its name in this process alone, or once: a pipe, say, or a descriptor."""
    return os.path.exists(path) and not os.path.isfile(path) and not os.path.isdir(path)


def reachable(words: Sequence[str], room: str) -> list[str]:
    """Returns the words, with names that any folder can reach. What only this process can read is copied."""
    found = list(words)
    for at in range(1, len(words) - 1):
        option, name = OPTIONS.get(words[at]), words[at + 1]
        if option is None or not option.names_a_file or not name or name.startswith("-"):
            continue
        found[at + 1] = os.path.join(os.getcwd(), name)
        if option != JOURNAL and is_read_once(name):
            found[at + 1] = copied(name, f"{room}/{option.name.strip('-')}") or found[at + 1]
    return found


def copied(name: str, copy: str) -> Optional[str]:
    """Copies what can be read once. Returns the copy, or None if it can't be read: the program says so then."""
    try:
        with open(name, "rb") as source, open(copy, "wb") as to:
            shutil.copyfileobj(source, to)
    except OSError:
        return None
    return copy


def run_unproved(words: Sequence[str]) -> int:
    """Builds the program without proofs and runs it with these words."""
    rt = toolchain()
    if not rt:
        stop("no program can be built: the toolchain's command `rt` isn't on the path")
    with tempfile.TemporaryDirectory(prefix="issuer-try-") as room:
        command = [rt, "try", "--seconds", str(SECONDS), "--", *reachable(words, room)]
        with open(f"{room}/said", "w+b") as said:
            run = run_program(command, Build(), f"{HOME}/crates/{TOP}", subprocess.DEVNULL, said)
            said.seek(0)
            lines = said.read().decode(errors="replace").splitlines()
    ended = next((found for found in map(ENDED.fullmatch, reversed(lines)) if found), None)
    if ended and ended["how"] == "ended" and ended["status"]:
        for line in lines:
            if not CHATTER.match(line):
                complain(line)
        return explained(words, int(ended["status"]), run.last, run.took_all)
    if run.status > 128:
        return run.status
    return cut_short(words, ended["how"] if ended else "none", lines)


def cut_short(words: Sequence[str], how: str, lines: Sequence[str]) -> int:
    """Says why the unproved build gave no status of its own."""
    text, left = "\n".join(lines), LEFT.get(words[0], "")
    if how == "no-answer" and "time limit" in text:
        tell(
            f"the unproved build was ended after {SECONDS} seconds, the limit of its run; its output is lost.{left}"
            f" {NO_LIMIT}"
        )
    elif how == "no-answer" and "bytes to standard output" in text:
        tell(f"the output is more than {OUTPUT}, the limit of an unproved build, and is lost.{left} {NO_LIMIT}")
    else:
        for line in lines[-LAST_LINES:]:
            complain(line)
        tell(CAUSES.get(how, CAUSES["none"]))
    return Status.NO_PROGRAM
