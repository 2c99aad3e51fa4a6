"""The file of the sources of figures: a line a URL, after the name of the machine or unit that it is of.

    m1 http://127.0.0.1:10000/metrics
    m1 http://127.0.0.1:15692/metrics/per-object
    m1 http://127.0.0.1:15692/metrics
    m2 http://127.0.0.1:11000/metrics

The first URL of a name has the figures of its partitions: if it doesn't answer, the machine doesn't. Others of that
name may have figures of its broker: RabbitMQ's plugin has queues at one path, and alarms at the other. An empty line
and one that begins with # are passed over.
"""
import re
from collections.abc import Iterable
from typing import NamedTuple

from issuer_host.facts.refusal import Refusal

NAME = re.compile(r"[0-9A-Za-z_.@:-]{1,64}")
URL = re.compile(r"http://[0-9A-Za-z_.:\[\]-]+/[!-~]*")
MOST = 2_000


class FigureSource(NamedTuple):
    """A machine, a bridge or a gateway, and where its figures are."""

    name: str
    urls: "tuple[str, ...]"


def sources_of(path: str, lines: Iterable[str]) -> "list[FigureSource]":
    """Returns the sources that lines name, in their order."""
    found: "dict[str, list[str]]" = {}
    for at, line in enumerate(lines, 1):
        words = line.split()
        if not words or words[0].startswith("#"):
            continue
        if len(words) != 2 or not NAME.fullmatch(words[0]) or not URL.fullmatch(words[1]):
            raise Refusal(f"{path}, line {at}: it has no name and URL, as `m1 http://127.0.0.1:10000/metrics`")
        found.setdefault(words[0], []).append(words[1])
    if not found or len(found) > MOST:
        raise Refusal(f"{path}: it names {len(found)} sources of figures: 1 to {MOST} are read")
    return [FigureSource(name, tuple(urls)) for name, urls in found.items()]


def read(path: str) -> "list[FigureSource]":
    try:
        with open(path, encoding="utf-8") as text:
            return sources_of(path, text)
    except (OSError, UnicodeError) as fault:
        raise Refusal(f"{path} can't be read: {fault}. It has a line for each source: NAME URL") from fault
