"""Runs over the same journals, damaged and old journals, and feeds to standbys."""
import json
import random
from collections.abc import Sequence
from typing import NamedTuple

from issuer_host.facts.commands import CALLERS
from issuer_host.facts.journals import ENDING, VERSION_LINE, journal_path
from oracle.feed import feed_lines
from program.differing.damage import damaged, damaged_line
from program.differing.pair import CLEAR, EXPORT, SERVE, SHOW, STANDBY, Pair
from program.differing.traffic import Settings, Traffic

VERSION = VERSION_LINE.encode()
# The lines of a short run, and of its clearing file; those of a run that is fed.
SHORT_RUN, SHORT_CLEARING, FED_RUN = 150, 50, 60


class Size(NamedTuple):
    """How many lines a run answers, by how many callers."""

    lines: int
    callers: int


def torn_rest(rng: random.Random) -> bytes:
    noise = rng.randbytes(9).replace(b"\n", b"")
    return rng.choice([b"d", b"s 4000", b"q 40000000ffffffffffff 00 8", noise])


def serve_runs(pair: Pair, rng: random.Random, settings: Settings, sizes: Sequence[Size]) -> None:
    """Runs of so many lines and callers over the same journals, with a torn rest before some of them."""
    traffic = Traffic(rng, settings)
    pair.put("config", json.dumps(settings).encode())
    for number, (lines, callers) in enumerate(sizes):
        # With several callers the lines that ask of one shard go to one of them, so that no two of them race.
        text = b"".join(traffic.line(None if callers == 1 else at % callers) + b"\n" for at in range(lines))
        pair.put("requests", text[:-1] if number % 2 else text)
        for shard in range(settings["shards"] if number % 3 == 1 else 0):
            pair.append(journal_path("journal", shard), torn_rest(rng))
        words = SERVE if callers == 1 else [*SERVE, CALLERS.name, str(callers)]
        pair.run(f"run {number}", words, by_line=True)
        pair.run(f"shown after run {number}", SHOW)
        pair.run(f"exported after run {number}", EXPORT)
        pair.put("clearing", traffic.certificates(lines // 4))
        pair.run(f"cleared after run {number}", CLEAR, by_line=True)


def short_run(pair: Pair, rng: random.Random, settings: Settings, lines: int) -> Traffic:
    """A run of so many lines over new journals."""
    traffic = Traffic(rng, settings)
    pair.put("config", json.dumps(settings).encode())
    pair.put("requests", traffic.lines(lines))
    pair.run("a short run", SERVE, by_line=True)
    return traffic


def damaged_journals(pair: Pair, rng: random.Random, settings: Settings, count: int) -> None:
    """Journals of a short run, damaged in one place of one shard."""
    traffic = short_run(pair, rng, settings, SHORT_RUN)
    pair.put("clearing", traffic.certificates(SHORT_CLEARING))
    right = pair.kept()
    for number in range(count):
        for name, text in right.items():
            pair.put(name, text)
        name = rng.choice([name for name, text in right.items() if text])
        pair.put(name, damaged(rng, right[name]))
        pair.run(f"damaged journal {number}", (SHOW, CLEAR, EXPORT)[number % 3])


def other_copy(rng: random.Random, old: bytes, whole: bytes) -> bytes:
    """What there is of a copy of an old journal.

    Its beginning or the whole of it, one with more records, a damaged one, or that of another journal.
    """
    copy = VERSION + old
    ways = {
        b"": 10,
        copy: 5,
        whole: 10,
        copy[: rng.randrange(len(copy) + 1)]: 10,
        damaged(rng, whole): 5,
        VERSION + rng.choice(whole.removeprefix(VERSION).splitlines(True)): 2,
        whole + b"s 40": 3,
        copy + b"q": 2,
    }
    return rng.choices(list(ways), list(ways.values()))[0]


def old_journals(pair: Pair, rng: random.Random, settings: Settings, count: int) -> None:
    """Old journals with the first of a short run's records, damaged or not, beside what there is of a copy."""
    short_run(pair, rng, settings, SHORT_RUN)
    wholes = {name.removesuffix(ENDING): text for name, text in pair.kept().items() if name.endswith(ENDING)}
    for number in range(count):
        pair.remove_journals()
        for name, whole in wholes.items():
            text = whole.removeprefix(VERSION)
            lines = text.splitlines(True)
            old = b"".join(lines[: rng.randint(0, len(lines))]) if rng.random() < 0.7 else text
            pair.put(name + ENDING, other_copy(rng, old, whole))
            old = damaged(rng, old) if old and rng.random() < 0.1 else old
            pair.put(name, old + rng.choice([b"", b"", b"s 4000", b"d", old[:30].replace(b"\n", b"")]))
        pair.run(f"old journals {number}", SHOW)
        pair.run(f"old journals {number}, again", SHOW)


def shuffled(rng: random.Random, lines: Sequence[bytes], reach: int) -> list[bytes]:
    """The lines, each moved by so many places at most."""
    placed = [(at + rng.uniform(0, reach), line) for at, line in enumerate(lines)]
    return [line for _, line in sorted(placed, key=lambda pair: pair[0])]


def feed_of(rng: random.Random, lines: Sequence[bytes]) -> bytes:
    """A feed of these lines, mostly in an order in which many of them are next.

    It is shuffled a little or much, with some left out, and some again.
    """
    kept = [line for line in lines if rng.random() > rng.choice([0, 0, 0, 0.01, 0.05])]
    kept = shuffled(rng, kept, rng.choice([0, 0, 2, 5, len(kept)]))
    for _ in range(rng.choice([0, 1, 3])):
        at = rng.randrange(len(kept) + 1)
        kept[at:at] = rng.choice([kept[max(0, at - 9) : at], kept[at:], kept[: at // 2][::-1]])
    if rng.random() < 0.6:
        at = rng.randrange(len(kept))
        kept[at] = damaged_line(rng, kept[at])
    text = b"".join(kept)
    return text[: rng.randrange(len(text))] if rng.random() < 0.2 else text


def feeds(pair: Pair, rng: random.Random, settings: Settings, count: int) -> None:
    """Feeds of a short run to standbys that have no record, or some of them before a torn rest."""
    short_run(pair, rng, settings, FED_RUN)
    kept = pair.kept()
    right = [kept[journal_path("journal", shard)].splitlines(True)[1:] for shard in range(settings["shards"])]
    lines = [line for shard, records in enumerate(right) for line in feed_lines(shard, records)]
    rng.shuffle(lines)
    lines.sort(key=lambda line: int(line.split(b" ", 2)[1]))
    for number in range(count):
        if number % 3 == 0:
            pair.remove_journals()
            for shard, records in enumerate(right if rng.random() < 0.5 else []):
                held = b"".join(records[: rng.randrange(len(records) + 1)])
                torn = rng.choice([b"", b"", b"d 4000", b"s"])
                pair.put(journal_path("journal", shard), VERSION + held + torn)
        pair.put("feed", feed_of(rng, lines))
        pair.run(f"feed {number}", STANDBY)
