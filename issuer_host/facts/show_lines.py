"""The lines that `show` prints: one for each card, in the order of the configuration."""
from typing import NamedTuple, Optional

NOTHING = "-"
# What comes after the PAN and the PSN.
WORDS = ("hi", "status", "queued", "done", "flight")
HALTED = "halt"


class ShownCard(NamedTuple):
    """A card, as its line says."""

    pan: str
    psn: str
    # None if the card has no decision.
    greatest_atc: Optional[int]
    status: int
    # Commands ever queued, and how many of them are done.
    queued: int
    done: int
    # The ATC of the last batch and its number of commands, or None.
    flight: Optional[tuple[int, int]]
    is_halted: bool


def card_of(line: str) -> ShownCard:
    """Returns what a line of `show` says. Another line is a ValueError."""
    pan, psn, hi, greatest, status, digit, queued, ever, done, ran, flight, *batch, state = line.split(" ")
    if (hi, status, queued, done, flight) != WORDS:
        raise ValueError(f"no line of `show`, of {len(line)} characters")
    return ShownCard(
        pan,
        psn,
        None if greatest == NOTHING else int(greatest),
        int(digit),
        int(ever),
        int(ran),
        None if batch == [NOTHING] else (int(batch[0]), int(batch[1])),
        state == HALTED,
    )


def cards_of(text: str) -> dict[tuple[str, str], ShownCard]:
    """Returns the cards that `show` printed, by PAN and PSN."""
    cards = [card_of(line) for line in text.splitlines()]
    return {(card.pan, card.psn): card for card in cards}
