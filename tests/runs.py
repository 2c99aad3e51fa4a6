"""What scripts that run the program share: an issuer of four cards over two shards, and the words of runs.

`tests/checks.py` has the words of a script, and its checks by name.
"""
import json
import os
import tempfile
from typing import NamedTuple

from checks import Tally, options_of
from issuer_host.facts import journals
from issuer_host.facts.commands import CALLERS, COMMANDS
from issuer_host.facts.paths import HOME

__all__ = ["HOME", "Tally", "options_of"]

MEMORY = "/dev/shm" if os.path.isdir("/dev/shm") else None
SHARDS = 2
VERSION = journals.VERSION_LINE
PANS = [f"4{card:015d}" for card in range(4)]
ANYTHING = "0" * 10
# The greatest amount.
MOST = 999_999_999_999


class Masked(NamedTuple):
    """A mask of five bytes, and the value that is compared under it; both in hexadecimal, and filled with zeros."""

    mask: str = ""
    value: str = ""

    def filled(self) -> tuple[str, str]:
        return self.mask.ljust(len(ANYTHING), "0"), self.value.ljust(len(ANYTHING), "0")


def table_row(
    code: str,
    approve: bool,
    csu: str,
    least: int = 0,
    most: int = MOST,
    status: int | None = None,
    tvr: Masked = Masked(),
    cvr: Masked = Masked(),
) -> dict[str, object]:
    """Returns a row of a decision table: one that takes all requests, but for what is given."""
    tvr_mask, tvr_value = tvr.filled()
    cvr_mask, cvr_value = cvr.filled()
    return {
        "tvr_mask": tvr_mask,
        "tvr_value": tvr_value,
        "cvr_mask": cvr_mask,
        "cvr_value": cvr_value,
        "least": least,
        "most": most,
        "status": status,
        "arc": code,
        "approve": approve,
        "csu": csu,
    }


def configuration() -> str:
    keys = [{"dki": 1, "option": "A", "ac": "0" * 32, "smi": "0" * 32}]
    cards = [{"pan": pan, "psn": "00", "method": 1} for pan in PANS]
    return json.dumps({"shards": SHARDS, "keys": keys, "cards": cards, "table": [table_row("3035", False, "00000000")]})


def status_line(number: int) -> tuple[str, str]:
    """Returns a line that sets a status for one of the cards, and the record that it has to leave."""
    pan = PANS[number % len(PANS)]
    status = number // len(PANS) % 10
    return f"S {pan} 00 {status}\n", f"s {pan}ffff 00 {status}"


def words_of(command: str, *values: str) -> list[str]:
    """Returns the words of a command: its needed options in their order, with these values."""
    pairs = zip(COMMANDS[command].needed, values, strict=True)
    return [command, *(word for option, value in pairs for word in (option.name, value))]


def serve(journal: str, callers: int = 1, requests: str = "requests", config: str = "config") -> list[str]:
    return [*words_of("serve", config, requests, journal), CALLERS.name, str(callers)]


def show(journal: str) -> list[str]:
    return words_of("show", "config", journal)


def clear(journal: str, clearing: str = "clearing") -> list[str]:
    return words_of("clear", "config", clearing, journal)


def export(journal: str) -> list[str]:
    return words_of("export", "config", journal)


def standby(journal: str, feed: str = "feed") -> list[str]:
    return words_of("standby", "config", feed, journal)


def old_path_of(folder: str, journal: str, shard: int) -> str:
    """Returns the path of a shard's old journal, of version 1."""
    return journals.old_journal_path(os.path.join(folder, journal), shard)


def path_of(folder: str, journal: str, shard: int) -> str:
    return journals.journal_path(os.path.join(folder, journal), shard)


def new_folder() -> "tempfile.TemporaryDirectory[str]":
    """A folder for a script's files, in memory if there is a file system there."""
    return tempfile.TemporaryDirectory(dir=MEMORY)


def content_of(path: str) -> str:
    """Returns the text of a file; none if there is no file."""
    if not os.path.exists(path):
        return ""
    with open(path, encoding="utf-8", errors="surrogateescape") as text:
        return text.read()


def write_text(folder: str, name: str, text: str) -> None:
    with open(os.path.join(folder, name), "w", encoding="utf-8", errors="surrogateescape") as file:
        file.write(text)


def write_bytes(folder: str, name: str, data: bytes) -> None:
    with open(os.path.join(folder, name), "wb") as file:
        file.write(data)


def whole_lines(folder: str, journal: str, shard: int) -> tuple[list[str], str]:
    """Returns the whole lines of a shard's records, and what stands behind them; none if there is no journal."""
    *whole, rest = content_of(path_of(folder, journal, shard)).split("\n")
    return whole[1:], rest
