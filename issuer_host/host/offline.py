"""Runs of the program over journals that no host serves, each by issuer-run."""
import subprocess
from collections.abc import Iterable, Sequence
from typing import Optional

from issuer_host.facts.show_lines import ShownCard, cards_of
from issuer_host.facts.statuses import meaning_of
from issuer_host.host.command import StartOptions, command_of

Card = tuple[str, str]


class Failed(Exception):
    """A run that ended with another status than 0, and why."""

    def __init__(self, status: int, text: str) -> None:
        super().__init__(text)
        self.status = status


def run(
    words: Sequence[str],
    config: str,
    journal: str,
    program: Optional[str] = None,
    begins: bool = False,
    given: str = "",
) -> str:
    """Returns what a command prints over a configuration and journals.

    `program` is another one than the proved one, and `given` is what it reads from its input.
    """
    start = StartOptions(program or "", "--begin" * begins)
    command = command_of(words[0], config, journal, *words[1:], start=start)
    done = subprocess.run(command, input=given, capture_output=True, text=True, check=False)
    if done.returncode:
        last = done.stdout.strip().rpartition("\n")[2]
        # (the error output may also say that another program was named)
        stopped = f"{last}: {meaning_of(done.returncode)}" if last or not done.stderr.strip() else ""
        said = "; ".join(filter(None, (done.stderr.strip(), stopped)))
        raise Failed(done.returncode, said)
    return done.stdout


def show(config: str, journal: str, program: Optional[str] = None, begins: bool = False) -> dict[Card, ShownCard]:
    """Returns what is shown of each card, by PAN and PSN."""
    return cards_of(run(["show"], config, journal, program, begins))


def serve(lines: Iterable[str], config: str, journal: str, program: Optional[str] = None) -> list[str]:
    """Returns the answers to lines, in their order."""
    given = "".join(f"{line}\n" for line in lines)
    return run(["serve", "--requests", "/dev/stdin"], config, journal, program, given=given).splitlines()
