"""Lines on the error output."""
import sys
from typing import NoReturn

from issuer_host.facts.statuses import Status


def complain(line: str) -> None:
    """Writes a line to the error output, if it is open."""
    try:
        # (None if the caller closed it: print would take the output)
        if sys.stderr:
            print(line, file=sys.stderr, flush=True)
    except OSError:
        pass


def tell(text: str) -> None:
    complain(f"issuer: {printable(text)}")


def printable(text: str) -> str:
    """Returns a text that moves no cursor and changes no colour: words of whoever called may be in it."""
    return "".join(one if one.isprintable() else ascii(one)[1:-1] for one in text)


def stop(text: str) -> NoReturn:
    """Says why there is no program to run, and ends the launcher."""
    tell(text)
    sys.exit(Status.NO_PROGRAM)


def minutes(seconds: float) -> str:
    """Spells a time: in minutes from 90 seconds on, and else in tens of seconds."""
    return f"{seconds / 60:.0f} min" if seconds >= 90 else f"{max(5, round(seconds, -1)):.0f} s"
