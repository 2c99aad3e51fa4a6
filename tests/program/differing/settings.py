"""Texts that are no configuration, and configurations with one place changed."""
import json
import random
from collections.abc import Iterator
from typing import Any

from issuer_host.facts.limits import MAX_CONFIGURATION_BYTES
from program.differing.pair import SERVE, Pair
from program.differing.traffic import Settings

Path = tuple[Any, ...]
NO_OBJECTS = (b"", b" ", b"[]", b"{", b"nul", b"null", b"1e999", b"\0", b"{}x", b"\xef\xbb\xbf{}", b"{} \x0c")
BAD_VALUES = (b"1e999", b'"\\ud800"', b'"\\udc00\\ud800"', b'"\xff"', b"NaN", b"Infinity", b'"\t"', b".5")
SHARDS = (b"1.0", b"1e0", b"-0", b"01", b"17", b"18446744073709551617", b'1,"shards":0')
DEEP = tuple(b"[" * depth + b"]" * depth for depth in (127, 128)) + tuple(
    b'{"a":' * depth + b"1" + b"}" * depth for depth in (126, 128)
)
TEXTS = (
    *(b"{}", *NO_OBJECTS, *DEEP),
    *(b'{"x":%b}' % value for value in BAD_VALUES),
    *(b'{"shards":%b}' % value for value in SHARDS),
)
# What another place of a configuration may have.
VALUES: tuple[Any, ...] = (
    *(None, True, False, 0, 1, 2, 10, 16, 17, 256, -1, 1.0),
    *("", "A", "00", "3030", "0" * 10, "g" * 10, "1" * 19, "1" * 20, "1" * 32),
    *([], {}, [{}]),
)


def places_of(value: Any, path: Path = ()) -> Iterator[Path]:
    """The ways to all values within a value."""
    yield path
    if isinstance(value, dict):
        items: Any = value.items()
    else:
        items = enumerate(value) if isinstance(value, list) else ()
    for key, item in items:
        yield from places_of(item, (*path, key))


def broken(rng: random.Random, settings: Settings) -> bytes:
    """A configuration with something else in one place."""
    changed = json.loads(json.dumps(settings))
    *path, last = rng.choice(list(places_of(changed))[1:])
    parent = changed
    for key in path:
        parent = parent[key]
    way = rng.randrange(6)
    if way == 0:
        del parent[last]
    elif way == 1 and isinstance(parent, list):
        parent.append(parent[last])
    else:
        parent[last] = rng.choice(VALUES)
    return json.dumps(changed).encode()


def near(right: bytes) -> list[bytes]:
    """A right configuration with a member twice, too long, or with an escape."""
    twice = [b'{"shards":0,' + right[1:], right[:-1] + b',"shards":0}']
    return [*twice, right + b" " * MAX_CONFIGURATION_BYTES, right.replace(b"3036", b"\\u0033036")]


def configurations(pair: Pair, rng: random.Random, settings: Settings, count: int) -> None:
    """Texts that are no configuration, and configurations with one place changed, of which some are right."""
    pair.put("requests", b"x\n")
    texts = [*TEXTS, *near(json.dumps(settings).encode()), *(broken(rng, settings) for _ in range(count))]
    for number, text in enumerate(texts):
        pair.remove_journals()
        pair.put("config", text)
        pair.run(f"configuration {number}, {text[:200]!r}", SERVE)
