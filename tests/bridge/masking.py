"""A folder in which commands of deploy/ are fed with card numbers, and what they wrote is searched for them."""
import os
import subprocess
from collections.abc import Callable

from bridge.bridges import PipedBridge
from bridge.issuers import configuration, pan_of
from checks import Check, Tally
from runs import HOME, new_folder

from issuer_host.facts.masks import masked

# Cards that no partition has; the first two cards of the issuer are among those that it has.
STRANGERS = ("5413330089604111", "4999999999999995123", "67034200554565015")
SECONDS = 1800


def numbers() -> tuple[str, ...]:
    return (*STRANGERS, *(pan_of(card) for card in range(8)))


def found_in(text: str) -> list[str]:
    """Returns the card numbers in a text, masked ones not."""
    return [masked(pan) for pan in numbers() if pan in text]


class Place:
    """A folder with the files of a partition that was served, and all that commands wrote."""

    def __init__(self, tally: Tally, room: str) -> None:
        self.tally = tally
        self.room = room
        self.bridge = PipedBridge(room, tally.program, configuration())
        self.wrote: list[str] = []

    def run(self, name: str, *words: str, given: str = "") -> str:
        """Runs a command of deploy/, and searches what it wrote to its error output. Returns its output."""
        command = [os.path.join(HOME, "deploy", name), *words]
        self.tally.note_run(command, self.room)
        done = subprocess.run(
            command, input=given, capture_output=True, text=True, check=False, cwd=self.room, timeout=SECONDS
        )
        self.tally.expect(found_in(done.stderr), [], f"deploy/{name}: its error output has numbers of cards")
        self.wrote.append(done.stderr)
        return done.stdout

    def clean(self, text: str, what: str) -> None:
        self.tally.expect(found_in(text), [], f"{what} has numbers of cards")

    def file(self, name: str, text: str) -> str:
        path = os.path.join(self.room, name)
        with open(os.open(path, os.O_CREAT | os.O_TRUNC | os.O_WRONLY, 0o600), "w", encoding="utf-8") as to:
            to.write(text)
        return path


def in_place(body: Callable[[Place], object]) -> Check:
    def check(tally: Tally) -> None:
        with new_folder() as room:
            place = Place(tally, room)
            try:
                body(place)
            finally:
                place.bridge.end()

    return Check(body.__name__, (body.__doc__ or "").strip(), check)
