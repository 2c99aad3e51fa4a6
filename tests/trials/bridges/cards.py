"""The cards and request lines of trials, as the measurements in bench/ make them."""
import json
import os
import sys
from collections.abc import Mapping, Sequence
from typing import Any

from issuer_host.facts.paths import HOME
from issuer_host.facts.request_lines import pan_of_line

# The status that declines for an account, and the response code of its row.
ACCOUNT, ACCOUNT_CODE = 1, "3531"
# The tag and length of the ATC in a line of the trials.
ATC = "9F3602"


def whole_configuration(cards: int, shards: int) -> dict[str, Any]:
    """Returns a configuration of so many cards."""
    found: dict[str, Any] = json.loads(request_lines().configuration(cards, shards))
    return found


def with_account_row(table: Sequence[Mapping[str, Any]]) -> list[Mapping[str, Any]]:
    """Returns a table with a row that declines for the account."""
    row = {**table[-1], "least": 0, "status": ACCOUNT, "arc": ACCOUNT_CODE, "approve": False, "csu": "00000000"}
    return [row, *table]


def distinct_lines(cards: int, count: int) -> list[str]:
    """Returns so many different request lines with right cryptograms."""
    each = -(-count // cards)
    return [line.rstrip("\n") for line in request_lines().distinct_lines(cards, each)[:count]]


def changed_line(line: str) -> str:
    """Returns a line of `distinct_lines` with another amount, and with the right cryptogram for it."""
    found = request_lines()
    pan = pan_of_line(line)
    counter = int(line.partition(ATC)[2][:4], 16)
    changed: str = found.line(found.TRIPLE_DES, pan, found.TRIPLE_DES.card_key(pan), counter, found.AMOUNT + 1)
    return changed.rstrip("\n")


def request_lines() -> Any:
    """Returns bench's module, which needs python3-cryptography."""
    folder = os.path.join(HOME, "bench")
    if folder not in sys.path:
        sys.path.insert(0, folder)
    import request_lines as found

    return found
