"""Runs a command of the service so that what passes has a status of its own.

Python ends with 1 at an exception that nobody catches. Here that is 75, after which a service is started again: want
of memory, of processes or of descriptors passes, and so does most of what nobody thought of.
"""
import importlib
import re
import sys
from collections.abc import Sequence

# Status.PASSES, which is said again here: the module that has it may be what can't be imported.
PASSES = 75
# What may be an account number, or the bytes of a line.
DIGITS = re.compile(r"[0-9A-Fa-f]{8,}")


def without_cards(text: str) -> str:
    """Returns a text in which each long number is masked."""
    from issuer_host.facts.masks import masked

    return DIGITS.sub(lambda found: masked(found[0]), text)


def run(module: str, words: Sequence[str]) -> int:
    """Runs the `main` of a module, and returns its status."""
    try:
        status: int = importlib.import_module(module).main(words)
        return status
    except Exception:
        import traceback

        sys.stderr.write(without_cards(traceback.format_exc()))
        return PASSES


def main(module: str) -> None:
    """Runs a module's command with the words of this process, and ends with its status."""
    sys.exit(run(module, sys.argv[1:]))
