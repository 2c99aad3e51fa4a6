"""Becomes a program whose configuration has wrapped keys, once the token has unwrapped them.

usage: keyed_program.py PROGRAM COMMAND --config FILE ..

The launcher starts it in a process of its own, so that no process that stays has a key. A refusal is a line on the
error output, and status 78.
"""
import os
import sys
from collections.abc import Sequence

if __name__ == "__main__":
    sys.dont_write_bytecode = True
    sys.path.insert(0, os.path.dirname(os.path.dirname(os.path.dirname(os.path.realpath(__file__)))))

from issuer_host.facts.commands import CONFIG, JOURNAL, value_of
from issuer_host.facts.memory import keep_from_others
from issuer_host.facts.refusal import Refusal, tell
from issuer_host.facts.statuses import Status
from issuer_host.start.held_configuration import read_configuration, refused_pin_path, with_configuration
from issuer_host.start.history_checks import APPENDING

NAME = "issuer"


def main(words: Sequence[str]) -> int:
    program, *given = words
    keep_from_others()
    try:
        configuration = read_configuration(value_of(CONFIG, given))
        configuration.find_token()
        # (the others are started by a person, and over copies of another user's journals too)
        configuration.unwrap(refused_pin_path(value_of(JOURNAL, given)) if given[0] in APPENDING else "")
        path = configuration.path_for_program(is_readable=True)
        os.execv(program, [program, *with_configuration(given, path)])
    except Refusal as refusal:
        tell(NAME, str(refusal))
        return Status.REFUSED
    except OSError as fault:
        tell(NAME, f"{fault.filename or program}: {fault.strerror}")
        return Status.PASSES


if __name__ == "__main__":
    sys.exit(main(sys.argv[1:]))
