"""Fourteen errands of somebody who looks for a place in the code: by the names of files, and by the map.

By name: the words that he has lead to a list of files that he can read at a glance, and the file is among them. By the
map: the row of `Where is ..?` that begins with his word names the file.
"""
import re
from typing import NamedTuple

from checks import Tally
from pages.naming.tree import found, text_of

MAP = "docs/develop/map.md"
# What somebody lists who looks for code: sources, the package, and what is deployed.
LISTED = ("crates/*/src/*", "issuer_host/*/*.py", "deploy/*")
# So many files are read at a glance.
GLANCE = 8
# At least so many errands end by names alone.
BY_NAME = 10


class Errand(NamedTuple):
    """What is looked for, the file that has it with a text of it, and the ways to it."""

    what: str
    path: str
    has: str
    # The words of its row in the map: the bold one, and others after it.
    row: tuple[str, str]
    # The words that are searched in the paths; nothing if no word leads there.
    words: str = ""


ERRANDS = (
    Errand(
        "the printed text of `refused 11`",
        "crates/answer_text/src/answer_line.rt",
        "refused",
        ("answers", "text"),
        "answer text",
    ),
    Errand("add a tag to the request", "crates/chip_request/src/slots.rt", "field!(0x9F36", ("tags", "parsed")),
    Errand(
        "a window of 512 ATCs", "crates/issuer_base/src/limits.rt", "WINDOW: u16 = 256", ("window", "256"), "limits"
    ),
    Errand("add a key suite", "crates/issuer_base/src/request.rt", "fn suite", ("suite", "AES")),
    Errand(
        "why a truncated end is synced once",
        "crates/journal_store/src/settling.rt",
        "fn settle",
        ("journal", "torn end"),
    ),
    Errand(
        "the limit of 16 shards", "crates/issuer_base/src/limits.rt", "MAX_SHARDS: u8 = 16", ("limits", ""), "limits"
    ),
    Errand(
        "add an element of ISO 8583",
        "issuer_host/gateway/mapping.py",
        "REQUEST_ROWS",
        ("ISO 8583", "an element, a response code"),
    ),
    Errand("the threshold of an alert", "deploy/alerts.yml", "expr:", ("alert", "threshold"), "alert"),
    Errand("add a type of order", "issuer_host/orders/order_types.py", "TYPES =", ("orders", "type"), "order type"),
    Errand(
        "why a node stops answering",
        "issuer_host/replication/node_stops.py",
        "self.partition.stop",
        ("node", "stops answering"),
        "node stop",
    ),
    Errand("where PANs are masked", "issuer_host/facts/masks.py", "def masked", ("PANs", "masked"), "mask"),
    Errand(
        "how long `refused 12` waits",
        "issuer_host/host/retry_policy.py",
        "PENDING",
        ("holding", "refused 12"),
        "retry",
    ),
    Errand(
        "which bytes a sync after a failed one writes again",
        "crates/store_edge/src/file_store.rt",
        "fn sync",
        ("journal", "appended and synced"),
        "file store",
    ),
    Errand(
        "what makes `clear` say `against`",
        "crates/clearing_check/src/verdict.rt",
        "Against",
        ("clearing", "verdict"),
        "verdict",
    ),
)


def is_found_by_name(errand: Errand) -> bool:
    """Whether its words lead to few files, and to the right one."""
    words = errand.words.split()
    paths = [path for pattern in LISTED for path in found(pattern) if all(word in path.lower() for word in words)]
    return bool(words) and errand.path in paths and len(paths) <= GLANCE


def is_found_by_map(errand: Errand, rows: list[str]) -> bool:
    """Whether the row of its word names its file."""
    bold, more = errand.row
    heads = [row for row in rows if row.startswith(f"| **{bold}**") and more in row.split(" | ")[0]]
    crate = re.fullmatch(r"crates/(\w+)/(src/.*)", errand.path)
    named = [crate[1], f"`{crate[2]}`"] if crate else [f"`{errand.path.removeprefix('issuer_host/')}`"]
    return any(all(name in row for name in named) for row in heads)


def errands_end_where_they_should(tally: Tally) -> None:
    """The map leads to the file of each of fourteen errands, and the names of files to that of ten at least."""
    rows = [line for line in text_of(MAP).split("\n") if line.startswith("| **")]
    for errand in ERRANDS:
        is_there = bool(found(errand.path)) and errand.has in text_of(errand.path)
        tally.holds(is_there, f"{errand.what}: {errand.path} has no {errand.has!r}")
        tally.holds(is_found_by_map(errand, rows), f"{errand.what}: no row **{errand.row[0]}** names {errand.path}")
        is_named = is_found_by_name(errand)
        tally.holds(is_named or not errand.words, f"{errand.what}: {errand.words!r} doesn't lead to {errand.path}")
    by_name = sum(map(is_found_by_name, ERRANDS))
    tally.holds(by_name >= BY_NAME, f"{by_name} errands end by the names of files, and have to be {BY_NAME}")
