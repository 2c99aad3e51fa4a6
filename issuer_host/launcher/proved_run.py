"""Runs of the proved program, and what the launcher says of their ends."""
import os
import sys
from collections.abc import Sequence

from issuer_host.facts.commands import CLEARING, CONFIG, JOURNAL, OVER_JOURNALS, value_of
from issuer_host.facts.paths import HOME, PROGRAM
from issuer_host.files.run_mark import lock_mark
from issuer_host.launcher.causes import explained
from issuer_host.launcher.clearing_progress import Judged
from issuer_host.launcher.program_run import run_program
from issuer_host.start.held_configuration import may_have_wrapped_keys

# What becomes a program over wrapped keys: it needs Debian's library for tokens, which another Python doesn't have.
KEYED_PROGRAM = os.path.join(HOME, "issuer_host/start/keyed_program.py")
SYSTEM_PYTHON = "/usr/bin/python3"


def run_proved(words: Sequence[str]) -> int:
    """Runs the proved program, and says beside its journals that a run may append."""
    mark = lock_mark(value_of(JOURNAL, words), creates=False) if words[0] in OVER_JOURNALS else None
    if mark is not None:
        mark.may_append()
    return run_watched(words)


def command_of(words: Sequence[str]) -> list[str]:
    """Returns the command of a run: the program, or what becomes it once a token has unwrapped the keys."""
    if may_have_wrapped_keys(value_of(CONFIG, words)):
        return [SYSTEM_PYTHON, "-I", KEYED_PROGRAM, PROGRAM, *words]
    return [PROGRAM, *words]


def run_watched(words: Sequence[str]) -> int:
    """Runs the proved program. On a terminal it tells how far `clear` has come."""
    command = command_of(words)
    if words[0] != "clear" or not sys.stderr or not sys.stderr.isatty():
        return explained(words, *run_program(command))
    judged = Judged(value_of(CLEARING, words))
    ended = run_program(command, judged)
    judged.ended()
    return explained(words, *ended)
