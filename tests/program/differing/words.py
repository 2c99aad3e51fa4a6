"""Command-line arguments, right and wrong ones; worlds; DOLs to fill; PIN changes."""
import json
import random
from collections.abc import Sequence

from issuer_host.facts.commands import CALLERS
from program.differing.pair import CLEAR, EXPORT, SERVE, SHOW, STANDBY, Pair
from program.differing.traffic import Settings
from runs import words_of

N = CALLERS.name
WORDS: tuple[Sequence[str], ...] = (
    *([], ["help"], ["--help"], ["serve"], ["show"], ["world"], SERVE[:-1], [*SERVE, N], [*SERVE, N, "0"]),
    *([*SERVE, N, "17"], [*SERVE, N, "01"], [*SERVE, N, "+1"], [*SERVE, *SERVE[1:3]], ["serve", *SHOW[1:]]),
    *([*SHOW, "--requests", "requests"], ["show", "--config", "", "--journal", "journal"]),
    *(["show", "--config", "-c", "--journal", "journal"], ["show", "--config=config", "--journal", "journal"]),
    *(["show", "--journal", "journal", "--config", "config"], ["Show", *SHOW[1:]]),
    *(["show", "--config", "none", "--journal", "journal"], [*SERVE[:3], "--requests", "none", *SERVE[5:]]),
    *(["show", "--config", "config", "--journal", "none/journal"], [*SERVE, N, "16"], [*SERVE, N, "1"]),
    *(["clear"], CLEAR, CLEAR[:-1], [*CLEAR, N, "2"], [*CLEAR[:3], *CLEAR[5:]], [*CLEAR[:4], "none", *CLEAR[5:]]),
    *(["clear", *SHOW[1:]], ["export"], EXPORT, EXPORT[:3], [*EXPORT, "--feed", "feed"], ["standby"], STANDBY),
    *(STANDBY[:-1], [*STANDBY, N, "2"], ["standby", *EXPORT[1:]], [*STANDBY[:4], "none", *STANDBY[5:]]),
    *([*STANDBY[:4], ".", *STANDBY[5:]], [*STANDBY[:4], "config", *STANDBY[5:]], [*STANDBY[:6], "none/journal"]),
    *(["fill"], ["fill", "--dol", "9502"], words_of("fill", "9502", ""), words_of("fill", "9502", "9C01" * 512)),
    *(words_of("fill", "00" * 1025, "9C0100"), [*words_of("fill", "9502", "9C0100"), "--seed", "1"]),
)
# Cards, steps and a seed.
WORLDS = (("1", "0", "0"), ("1", "8", "0"), ("3", "120", "4294967295"), ("16", "400", "7"), ("4096", "100", "3"))
WRONG_WORLDS = (
    *(("0", "8", "0"), ("4097", "8", "0"), ("1", "65536", "0"), ("4", "200001", "0"), ("1", "8", "4294967296")),
    *(("01", "8", "0"), ("-1", "8", "0"), ("1x", "8", "0"), ("", "8", "0")),
)
# Tags of each format, primitive and constructed, of one to three bytes; and what is no tag.
TAGS = [
    bytes.fromhex(tag)
    for tag in (
        *("9F02", "9F03", "9F1A", "5F2A", "5F34", "9A", "9C", "5A", "95", "82", "9F37", "9F36", "9F33", "9F10"),
        *("8A", "57", "70", "A5", "BF0C", "DF8101", "DF8102", "FF8103"),
    )
]
NO_TAGS = (b"\x00", b"\xDF\x81\x81\x01")
# The greatest length of a DOL's data is below this.
DATA_BYTES = 1030


def words(pair: Pair, settings: Settings) -> None:
    pair.put("config", json.dumps(settings).encode())
    pair.put("requests", b"x\n")
    pair.put("feed", b"")
    for tried in WORDS:
        pair.run(f"words {tried}", tried)


def worlds(pair: Pair) -> None:
    for cards, steps, seed in WORLDS + WRONG_WORLDS:
        tried = words_of("world", cards, steps, seed)
        pair.run(f"words {tried}", tried)


def drawn_tag(rng: random.Random) -> bytes:
    return rng.choice(TAGS) if rng.random() < 0.97 else rng.choice([*NO_TAGS, rng.randbytes(2)])


def dol_of(rng: random.Random) -> bytes:
    """A DOL within the limits more often than not: few entries, or as many or as long as they allow, and past them."""
    many = rng.randint(62, 66), rng.choice([3, 4])
    count, most = rng.choice([(rng.randint(1, 12), 12), (rng.randint(1, 4), 80), many])
    dol = b"".join(drawn_tag(rng) + bytes([rng.randint(0, most)]) for _ in range(count))
    return dol[: rng.randint(1, len(dol))] if rng.random() < 0.1 else dol


def object_of(rng: random.Random, tag: bytes) -> bytes:
    few = rng.randint(0, 12)
    value = rng.randbytes(rng.choice([few, few, rng.randint(60, 66)]))
    size = bytes([len(value)]) if rng.random() < 0.9 else rng.choice([b"\x81", b"\x82\x00"]) + bytes([len(value)])
    return tag + size + value


def data_of(rng: random.Random) -> bytes:
    """Data objects, of different tags more often than not, with padding between them."""
    tags = rng.sample(TAGS, rng.randint(1, 12)) + [drawn_tag(rng)] * (rng.random() < 0.1)
    if rng.random() < 0.05:
        tags = [bytes([0xDF, 0x81, number]) for number in range(1, rng.choice([64, 65, 66]))]
    data = b"".join(bytes(rng.random() < 0.05) + object_of(rng, tag) for tag in tags)[:DATA_BYTES]
    return data[: rng.randint(1, len(data))] if rng.random() < 0.1 else data


def hex_word(rng: random.Random, data: bytes) -> str:
    word = rng.choice([data.hex(), data.hex().upper()])
    return rng.choice([word[:-1], word + "g", word + "0"]) if rng.random() < 0.01 else word


def dols(pair: Pair, rng: random.Random, count: int) -> None:
    for number in range(count):
        tried = words_of("fill", hex_word(rng, dol_of(rng)), hex_word(rng, data_of(rng)))
        pair.run(f"DOL {number}, {tried}", tried)


def digits(rng: random.Random, least: int, most: int) -> str:
    return "".join(rng.choices("0123456789", k=rng.randint(least, most)))


def pin_words(rng: random.Random, settings: Settings) -> list[str]:
    """Words of a PIN change: mostly of a card and a key set of the configuration, and now and then of neither."""
    card = rng.choice(settings["cards"])
    dki = rng.choice(settings["keys"])["dki"] if rng.random() < 0.9 else rng.randrange(256)
    named = {
        "--config": "config",
        "--pan": card["pan"] if rng.random() < 0.95 else digits(rng, 7, 20),
        "--psn": card["psn"] if rng.random() < 0.95 else digits(rng, 1, 3),
        "--dki": hex_word(rng, bytes([dki])),
        "--salt": hex_word(rng, rng.randbytes(8 if rng.random() < 0.95 else 7)),
        "--pin": digits(rng, 4, 12) if rng.random() < 0.9 else digits(rng, 3, 13),
    }
    names = rng.sample(list(named), len(named))
    return ["pin", *(word for name in names for word in (name, named[name]))]


def pin_changes(pair: Pair, rng: random.Random, settings: Settings, count: int) -> None:
    """PIN changes by key sets of both options, of which one has no key for confidentiality."""
    for key_set in settings["keys"][:-1]:
        key_set["smc"] = rng.randbytes(16).hex()
    pair.put("config", json.dumps(settings).encode())
    for number in range(count):
        tried = pin_words(rng, settings)
        pair.run(f"PIN change {number}, {tried}", tried)
