"""How the checks run the commands of deploy/, what a refusal has to say, and a host's folder with its words."""
import os
import subprocess
import sys
import tempfile
from collections.abc import Iterator
from contextlib import contextmanager
from typing import Any

from checks import Tally
from issuer_host.facts import journals
from issuer_host.facts.paths import HOME
from issuer_host.facts.statuses import Status
from runs import configuration, write_text

Ran = subprocess.CompletedProcess[str]


def run(tally: Tally, name: str, *words: str, **more: Any) -> Ran:
    """Runs a command of deploy/, by the Python that runs this one."""
    tally.note_run([f"deploy/{name}", *words])
    command = [sys.executable, "-B", os.path.join(HOME, "deploy", name), *words]
    return subprocess.run(command, capture_output=True, text=True, check=False, **more)


def run_tool(tally: Tally, *words: str, **more: Any) -> Ran:
    """Runs a tool of the machine."""
    tally.note_run(words, more.get("cwd", ""))
    return subprocess.run(words, capture_output=True, text=True, check=False, **more)


def is_refused(tally: Tally, ran: Ran, what: str, *said: str) -> None:
    """A refused start has its status, and says what to do."""
    tally.expect(ran.returncode, Status.REFUSED, f"{what}: the status, with {ran.stderr!r}")
    tally.holds(
        all(text in ran.stderr for text in said), f"{what}: {said} on the error output, which has {ran.stderr!r}"
    )


def fails(tally: Tally, ran: Ran, what: str, said: str) -> None:
    """A command that refuses its input ends with 1, and says why."""
    tally.holds(ran.returncode == 1 and said in ran.stderr, f"{what}: status {ran.returncode}, {ran.stderr!r}")


class Host:
    """A host's configuration and the name of its journals, in a folder."""

    def __init__(self, tally: Tally, folder: str, name: str = "journal") -> None:
        self.tally = tally
        self.folder = folder
        self.config = os.path.join(folder, "config")
        self.name = os.path.join(folder, name)
        self.program = ["--program", tally.program]
        write_text(folder, "config", configuration())

    def files(self, name: str = "") -> list[str]:
        return ["--config", self.config, "--journal", name or self.name]

    def start(self, *begin: str, command: str = "show", more: tuple[str, ...] = (), **how: Any) -> Ran:
        """Starts a command of the program by deploy/issuer-run."""
        return run(self.tally, "issuer-run", *begin, *self.program, command, *self.files(), *more, **how)

    def begun(self) -> "Host":
        """Creates the journals, empty."""
        ran = self.start("--begin")
        if ran.returncode:
            raise ValueError(f"no journal began: {ran}")
        return self

    def journal(self, shard: int) -> str:
        return journals.journal_path(self.name, shard)

    def old_journal(self, shard: int) -> str:
        return journals.old_journal_path(self.name, shard)


@contextmanager
def new_host(tally: Tally, name: str = "journal") -> Iterator[Host]:
    """A host in a folder of its own. It has no journals yet."""
    with tempfile.TemporaryDirectory() as folder:
        yield Host(tally, folder, name)
