"""Which row of a configuration's table decides a recorded request: the rule of the program, said again for a look."""

from collections.abc import Mapping, Sequence
from typing import Any, NamedTuple, Optional

from issuer_host.facts.journals import Request

# The card verification results are bytes 4 to 8 of the issuer application data.
CVR = slice(6, 16)


class DecidingRow(NamedTuple):
    """The first row that fits: its number, from 1, its response code in hexadecimal, and whether it approves."""

    number: int
    code: str
    approves: bool


def deciding_row(table: Sequence[Mapping[str, Any]], request: Request, status: int) -> Optional[DecidingRow]:
    """The row that decides a request of a card with a status; None if none fits, which no valid table has."""
    for number, row in enumerate(table, 1):
        if fits(row, request, status):
            return DecidingRow(number, str(row["arc"]).lower(), bool(row["approve"]))
    return None


def fits(row: Mapping[str, Any], request: Request, status: int) -> bool:
    is_fit = masks(row["tvr_mask"], row["tvr_value"], request.tvr)
    is_fit = is_fit and masks(row["cvr_mask"], row["cvr_value"], request.issuer_data[CVR])
    is_fit = is_fit and int(row["least"]) <= int(request.amount) <= int(row["most"])
    return is_fit and row["status"] in (None, status)


def masks(mask: str, value: str, digits: str) -> bool:
    """Whether a value has the bits under a mask that a row asks for. All are hexadecimal."""
    return int(digits, 16) & int(mask, 16) == int(value, 16)
