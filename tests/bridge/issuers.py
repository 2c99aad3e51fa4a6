"""A small issuer for tests of bridges: some cards over two shards, and their requests."""
from collections.abc import Mapping
from typing import Any, Optional

from oracle.configuration import Issuer, read_configuration
from oracle.suites import Suite
from oracle.terminal import line_of, purchase, signed
from runs import table_row

import json

SHARDS = 2
CARDS = 8
# The status whose row declines for the account, the response code of that row, and the status of a blocked card.
ACCOUNT, ACCOUNT_CODE = 1, "3531"
BLOCKED, BLOCKED_CODE = 2, "3431"
KEYS = {"ac": "01" * 16, "smi": "02" * 16}


def configuration(master_keys: Mapping[str, str] = KEYS) -> dict[str, Any]:
    rows = [
        table_row(ACCOUNT_CODE, False, "00000000", status=ACCOUNT),
        table_row(BLOCKED_CODE, False, "00000000", status=BLOCKED),
        table_row("3030", True, "00800000"),
    ]
    keys = [{"dki": 1, "option": "A", **master_keys}]
    cards = [{"pan": pan_of(card), "psn": "00", "method": 1 + card % 2} for card in range(CARDS)]
    return {"shards": SHARDS, "keys": keys, "cards": cards, "table": rows}


def pan_of(card: int) -> str:
    return f"4{card:015d}"


class Requests:
    """Requests of the issuer's cards, each with the next ATC of its card."""

    def __init__(self, members: Optional[dict[str, Any]] = None) -> None:
        self.issuer: Issuer = read_configuration(json.dumps(members or configuration()).encode())
        self.counters = [0] * CARDS

    def next(self, card: int) -> str:
        self.counters[card] += 1
        info = self.issuer.cards[card]
        request = purchase(info.pan, self.counters[card])
        keys = self.issuer.known_keys_of(info, 1, Suite.TRIPLE_DES)
        return line_of(signed(request, keys.cryptograms)).decode()
