"""The spool of a soak: full of what a gateway knows from the start, so that its memory of it is as great as it gets."""
import json
import subprocess
from typing import Any

from issuer_host.facts.paths import HOME
from issuer_host.gateway.advices import KNOWN
from issuer_host.gateway.spool import SpoolWriter

# A gateway keeps twice as many marks as it knows messages, and a message has two.
FILLED = KNOWN
AT_ONCE = 10_000
MOST = 1_000_000


class Spool:
    """A gateway's spool, of which everything is given out again."""

    def __init__(self, folder: str, filled: int = FILLED) -> None:
        self.folder = folder
        writer = SpoolWriter(folder)
        writer.open()
        for begin in range(0, filled, AT_ONCE):
            writer.store([earlier(number) for number in range(begin, min(begin + AT_ONCE, filled))])
        writer.close()
        self.filled = self.take()

    def take(self) -> int:
        """Takes what waits, as an account system does, and returns how many lines it was."""
        given = self.call("take", "--most", str(MOST)).splitlines()
        if not given:
            return 0
        told = json.loads(given[0])
        self.call("confirm", str(told["batch"]))
        count: int = told["lines"]
        return count if count == len(given) - 1 else -1

    def call(self, word: str, *more: str) -> str:
        command = [f"{HOME}/deploy/advices", word, *more, "--spool", self.folder]
        return subprocess.run(command, capture_output=True, text=True, check=True).stdout


def earlier(number: int) -> "dict[str, Any]":
    """Returns the object of a reversal of earlier days."""
    elements = {"2": f"5{number:015d}", "4": "000000001250", "11": f"{number:06d}", "37": f"{10**11 + number}"}
    head = {"time": "2026-12-01T00:00:00.000Z", "what": "reversal", "dialect": "1987-ascii", "from": "127.0.0.1"}
    return {**head, "type": "0420", "repeat": False, "answer": "00", "elements": elements}
