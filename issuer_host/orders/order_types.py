"""The types of orders: `Q` queues a script command for a card, and `S` sets a card's status. And the form of a line.

A new type has its word here, and its record in `files/card_records`. Both name the types; `CONTRIBUTING.md` has what it
changes in the program. The command's start is most of what an order takes. So this module imports next to nothing: with
`re` or `typing` the command takes several times as long.
"""
TYPES = ("Q", "S")

DIGITS = frozenset("0123456789")
HEXADECIMAL = DIGITS | frozenset("abcdefABCDEF")
NAME = HEXADECIMAL | frozenset("ghijklmnopqrstuvwxyzGHIJKLMNOPQRSTUVWXYZ-")
# Digits of a PAN and a PSN; letters of an order's number, and digits of its line's.
PAN_DIGITS = range(8, 20)
PSN_DIGITS = range(2, 3)
NAME_LETTERS = range(1, 41)
LINE_DIGITS = range(1, 8)


def is_of(text: str, letters: frozenset[str], lengths: range) -> bool:
    """Whether a text has such a length, and these letters alone."""
    return len(text) in lengths and letters.issuperset(text)


def is_number(text: str) -> bool:
    """Whether a text may be an order's number."""
    return is_of(text, NAME, NAME_LETTERS)


def is_number_of_line(text: str) -> bool:
    """Whether a text is an order's number, a slash, and the number of a line of it."""
    number, _, line = text.partition("/")
    return is_number(number) and is_of(line, DIGITS, LINE_DIGITS)


def words_of(line: str) -> list[str]:
    """Returns the type, PAN, PSN and value of an order's line; nothing if it is none."""
    words = line.split(" ")
    if len(words) != 4 or words[0] not in TYPES:
        return []
    _, pan, psn, value = words
    is_card = is_of(pan, DIGITS, PAN_DIGITS) and is_of(psn, DIGITS, PSN_DIGITS)
    return words if is_card and value and HEXADECIMAL.issuperset(value) else []
