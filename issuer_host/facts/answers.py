"""The host's answers: their first words, the refusals by name, and the reply of a decision."""
import functools
from enum import IntEnum
from typing import NamedTuple, Optional

FRESH, KEPT, REFUSED, QUEUED, SET = "fresh", "kept", "refused", "queued", "set"
ANSWERS = (FRESH, KEPT, REFUSED, QUEUED, SET)
DECISIONS = (FRESH, KEPT)
# These name a record by its shard and index: it is durable then.
RECORDED = (FRESH, KEPT, QUEUED, SET)


class RefusalNumber(IntEnum):
    """Why a line was refused, by the number after the word `refused`."""

    BAD_LINE = 1
    BAD_TLV = 2
    MISSING = 3
    BAD_FIELD = 4
    REPEATED = 5
    UNKNOWN_CARD = 6
    NOT_ARQC = 7
    UNKNOWN_KEY = 8
    BAD_CRYPTOGRAM = 9
    BELOW_WINDOW = 10
    TAKEN = 11
    PENDING = 12
    QUEUE_FULL = 13
    BAD_COMMAND = 14
    STORE_FAULT = 15
    # A verdict on a clearing line alone: it is neither a TC nor an AAC.
    WRONG_KIND = 17


# The refusals that `serve` answers with.
REFUSALS = tuple(refusal for refusal in RefusalNumber if refusal is not RefusalNumber.WRONG_KIND)
# Nothing was recorded, and the same line gets an answer by the history a moment later.
HELD = (RefusalNumber.PENDING, RefusalNumber.STORE_FAULT)
HELD_NUMBERS = frozenset(str(int(refusal)) for refusal in HELD)


class Kind(NamedTuple):
    """The first word of an answer, and a refusal's number as text; an empty text if it is no refusal."""

    word: str
    refusal: str = ""


KINDS = {word: Kind(word) for word in ANSWERS}


def kind_of(answer: str) -> Kind:
    """Returns the first word of an answer, and a refusal's number."""
    word, _, rest = answer.partition(" ")
    if word == REFUSED:
        return Kind(REFUSED, rest.partition(" ")[0])
    return KINDS.get(word) or Kind(word)


# (who reads an answer, seals its record and responds by it splits it once)
@functools.lru_cache(4)
def words_of(answer: str) -> "tuple[str, ...]":
    """The words of an answer."""
    return tuple(answer.split(" "))


def reply_of(answer: str) -> Optional[str]:
    """Returns what a decision's first answer and every repeat have in common, or None if the answer is no decision."""
    word, _, reply = answer.partition(" ")
    return reply if word in DECISIONS else None


def is_held(answer: str) -> bool:
    """Whether nothing was recorded for a line that gets its answer when it is sent again a moment later."""
    return kind_of(answer).refusal in HELD_NUMBERS
