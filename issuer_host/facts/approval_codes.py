"""Approval codes, element 38 of ISO 8583: six digits or letters of a decision's shard and index, in base 36."""

DIGITS = "0123456789ABCDEFGHIJKLMNOPQRSTUVWXYZ"
LENGTH, SHARDS = 6, 16
# All pairs of digits, in their order.
PAIRS = [first + second for first in DIGITS for second in DIGITS]
# So many codes there are, 000000 apart: then they come again.
CODES = len(DIGITS) ** LENGTH - 1


def approval_code(shard: int, place: int) -> str:
    """The code of a decision: never 000000.

    No other decision of a host has it, until a shard has 136,048,895 records.
    """
    number: int = (place * SHARDS + shard) % CODES + 1
    number, last = divmod(number, len(PAIRS))
    first, middle = divmod(number, len(PAIRS))
    return PAIRS[first] + PAIRS[middle] + PAIRS[last]


def decision_of_code(code: str) -> "tuple[int, int]":
    """The shard and the index of the first decision that has a code. Another text is a ValueError."""
    number = int(code, len(DIGITS)) - 1 if len(code) == LENGTH and code.isalnum() and code.isascii() else -1
    if number < 0:
        raise ValueError(f"{code} is no approval code: six digits or letters, and not 000000")
    return number % SHARDS, number // SHARDS
