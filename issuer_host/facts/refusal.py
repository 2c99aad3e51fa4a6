"""What a command of the service doesn't do, and how it says so."""
import sys


class Refusal(Exception):
    """Something that a command doesn't do, and what to do instead."""


def tell(name: str, text: str) -> None:
    """Writes a message of a command to the error output."""
    print(f"{name}: {text}", file=sys.stderr, flush=True)
