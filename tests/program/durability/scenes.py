"""The runs that the checks watch: an issuer of some shards, lines for its cards, and journals to begin with."""
import json
import os
from collections.abc import Sequence
from typing import NamedTuple, Optional

from issuer_host.facts.journals import VERSION_LINE, journal_path, old_journal_path, record_of
from issuer_host.facts.paths import HOME

from program.durability.disk import Image, write_journals

EXAMPLES = os.path.join(HOME, "examples")
# The cards of the examples, whose request lines are signed, and cards that get statuses.
EXAMPLE_PANS = ("4000000000000002", "4000000000000010")
STATUS_PANS = tuple(f"5{card:015d}" for card in range(30))
# Lines of examples/requests that ask for a new decision each, but one, which repeats the first.
DECIDED_LINES = (0, 2, 1, 3, 4, 12, 13)
# Lines that come at once: more than one, so that a block has several answers.
GROUP = 3
TORN = b"s 4000"
CONFIG, FEED = "config", "feed"
STANDARD_INPUT = "/dev/stdin"


class Scene(NamedTuple):
    """A run: its words, the groups of its lines, and the folder that it begins in."""

    name: str
    shards: int
    words: tuple[str, ...]
    groups: tuple[tuple[str, ...], ...]
    journals: Image
    files: dict[str, str]

    @property
    def lines(self) -> list[str]:
        return [line for group in self.groups for line in group]

    def prepare(self, folder: str, journals: Optional[Image] = None) -> None:
        """Writes the configuration, the other inputs, and the journals into a folder."""
        for name, text in {CONFIG: configuration(self.shards), **self.files}.items():
            with open(os.path.join(folder, name), "w", encoding="ascii") as file:
                file.write(text)
        write_journals(folder, self.journals if journals is None else journals)


def configuration(shards: int) -> str:
    """The issuer of the examples over so many shards, with more cards."""
    with open(os.path.join(EXAMPLES, "config"), encoding="ascii") as text:
        issuer = json.load(text)
    issuer["shards"] = shards
    issuer["cards"] += [{"pan": pan, "psn": "00", "method": 1} for pan in STATUS_PANS]
    return json.dumps(issuer)


def shard_of(pan: str, shards: int) -> int:
    return (EXAMPLE_PANS + STATUS_PANS).index(pan) % shards


def status_line(number: int) -> str:
    """A status for one of the cards: cards in turn, and for each the statuses in turn."""
    return f"S {STATUS_PANS[number % len(STATUS_PANS)]} 00 {number // len(STATUS_PANS) % 10}"


def mixed_lines(count: int) -> list[str]:
    """Lines of all forms: decisions and commands among statuses."""
    with open(os.path.join(EXAMPLES, "requests"), encoding="ascii") as text:
        requests = text.read().splitlines()
    others = [requests[number] for number in DECIDED_LINES]
    others[1:1] = [f"Q {pan} 00 84DA0000{number:02x}010101" for number, pan in enumerate(EXAMPLE_PANS)]
    lines = []
    for number in range(count):
        is_other = number % 3 == 2 and others
        lines.append(others.pop(0) if is_other else status_line(number))
    return lines


def groups_of(lines: Sequence[str], size: int = GROUP) -> tuple[tuple[str, ...], ...]:
    return tuple(tuple(lines[at : at + size]) for at in range(0, len(lines), size))


def record_of_status(line: str) -> str:
    """The record's line that a status line leaves."""
    _, pan, psn, status = line.split(" ")
    return f"s {pan:f<20} {psn} {status}"


def status_records(shards: int, shard: int, count: int) -> list[str]:
    """So many records of a shard, of statuses for its cards."""
    numbers = [it for it in range(len(STATUS_PANS) * 10) if shard_of(status_line(it).split()[1], shards) == shard]
    return [record_of_status(status_line(numbers[it % len(numbers)])) for it in range(count)]


def text_of(records: Sequence[str], version: str = VERSION_LINE) -> bytes:
    return (version + "".join(f"{record}\n" for record in records)).encode("ascii")


def journals_of(shards: int, count: int) -> Image:
    """Journals of so many records each, the last one with a torn line, and the empty old ones beside them."""
    image = {old_journal_path("journal", shard): b"" for shard in range(shards)}
    for shard in range(shards):
        image[journal_path("journal", shard)] = text_of(status_records(shards, shard, count))
    image[journal_path("journal", shards - 1)] += TORN
    return image


def old_journals_of(shards: int, counts: Sequence[int]) -> Image:
    """Old journals of so many records, the first with a torn line."""
    image = {}
    for shard, count in enumerate(counts):
        image[old_journal_path("journal", shard)] = text_of(status_records(shards, shard, count), version="")
    image[old_journal_path("journal", 0)] += TORN
    return image


def serve(callers: int) -> tuple[str, ...]:
    words = ("serve", "--config", CONFIG, "--requests", STANDARD_INPUT, "--journal", "journal")
    return (*words, "--callers", str(callers))


def show() -> tuple[str, ...]:
    return ("show", "--config", CONFIG, "--journal", "journal")


def served(name: str, callers: int, journals: Image, lines: Sequence[str], shards: int = 2) -> Scene:
    return Scene(name, shards, serve(callers), groups_of(lines), journals, {})


def standby(count: int, journals: Image, shards: int = 2) -> Scene:
    """A standby that takes so many records a shard behind those that its journals have."""
    records = [status_records(shards, shard, count) for shard in range(shards)]
    feed = "".join(f"{shard} {place} {own[place]}\n" for place in range(count) for shard, own in enumerate(records))
    words = ("standby", "--config", CONFIG, "--feed", FEED, "--journal", "journal")
    return Scene("standby", shards, words, (), journals, {FEED: feed})


def migration(counts: Sequence[int], name: str = "migration") -> Scene:
    """A start over old journals alone, which copies their records."""
    return Scene(name, len(counts), show(), (), old_journals_of(len(counts), counts), {})


def migration_gone_on_with(counts: Sequence[int], copied: int) -> Scene:
    """A start over old journals whose copies another one began: so many bytes of each."""
    begun = migration(counts, "migration, gone on with")
    for shard, count in enumerate(counts):
        text = text_of(status_records(len(counts), shard, count))
        begun.journals[journal_path("journal", shard)] = text[:copied]
    return begun


def fits(line: str, record: str) -> bool:
    """Whether a record is the one that a line asks for."""
    form, _, words = line.partition(" ")
    if form == "S":
        return record == record_of_status(line)
    card = record_of(record).card
    return words.startswith(f"{card[0]} {card[1]} ") if form == "Q" else f"5A08{card[0]}" in words
