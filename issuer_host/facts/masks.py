"""What messages and logs may have of a card."""

SHOWN_FIRST, SHOWN_LAST = 6, 4


def masked(pan: str) -> str:
    """Returns a PAN's first six and last four digits, as PCI DSS has it. A shorter one shows its last four."""
    first = SHOWN_FIRST if len(pan) > SHOWN_FIRST + SHOWN_LAST else 0
    return pan[:first] + "*" * (len(pan) - first - SHOWN_LAST) + pan[-SHOWN_LAST:]


def name_of_card(pan: str, psn: str) -> str:
    """Returns how a message names a card."""
    return f"card {masked(pan)} {psn}"
