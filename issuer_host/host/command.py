"""The command of a run: the careful start, with the program's own words."""
import os
from typing import NamedTuple

from issuer_host.facts.paths import HOME

CAREFUL_START = os.path.join(HOME, "deploy", "issuer-run")
INPUT = "/dev/stdin"


class StartOptions(NamedTuple):
    """The words of the careful start's own."""

    # Another program than the proved one.
    program: str = ""
    # As --begin.
    begin: str = ""
    # The file that says which journals the partition's last run had.
    last_run: str = ""

    def words(self) -> "list[str]":
        named = {"--program": self.program, "--last-run": self.last_run}
        values = [word for name, value in named.items() if value for word in (name, value)]
        return [*([self.begin] if self.begin else []), *values]


def command_of(word: str, config: str, journal: str, *more: str, start: StartOptions = StartOptions()) -> "list[str]":
    """Returns the command of the careful start for a command of the program over a configuration and journals."""
    return [CAREFUL_START, *start.words(), word, "--config", config, "--journal", journal, *more]


def serving_command(config: str, journal: str, callers: int, start: StartOptions = StartOptions()) -> "list[str]":
    """Returns the command of a host, which gets its lines by its input."""
    more = ["--requests", INPUT, "--callers", str(callers)]
    return command_of("serve", config, journal, *more, start=start)
