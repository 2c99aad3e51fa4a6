"""Figures in Prometheus' text form, read: what one page of a service says."""
import re
from collections.abc import Iterable
from typing import NamedTuple, Optional

LINE = re.compile(r"([a-zA-Z_:][\w:]*)(?:\{(.*)\})? (\S+)")
LABEL = re.compile(r'(\w+)="((?:[^"\\]|\\.)*)"')
# In a label's text a backslash stands before a quotation mark, a backslash, and the n of a line's end.
ESCAPED = re.compile(r"\\(.)")
PARTITION = "partition"
# So many figures of one page are read: a node of 1,000 partitions has fewer.
MOST = 200_000


class Figure(NamedTuple):
    """A figure with its labels."""

    labels: "dict[str, str]"
    value: float


class FiguresText:
    """The figures of a page, by name."""

    def __init__(self, texts: Iterable[str]) -> None:
        self.figures: "dict[str, list[Figure]]" = {}
        for text in texts:
            for line in text.splitlines()[:MOST]:
                found = LINE.fullmatch(line.rstrip())
                if found:
                    self.add(*found.groups(default=""))

    def add(self, name: str, labels: str, value: str) -> None:
        try:
            number = float(value)
        except ValueError:
            return
        self.figures.setdefault(name, []).append(Figure(dict(LABEL.findall(labels)), number))

    def has(self, name: str) -> bool:
        return name in self.figures

    def all(self, name: str, **labels: str) -> "list[float]":
        """Returns the values of a figure that has these labels."""
        wanted = labels.items()
        return [one.value for one in self.figures.get(name, ()) if wanted <= one.labels.items()]

    def first(self, name: str, **labels: str) -> Optional[float]:
        """Returns the value of a figure; None if there is none."""
        return next(iter(self.all(name, **labels)), None)

    def number(self, name: str, partition: int) -> float:
        """Returns the sum of a figure of a partition; 0 if there is none."""
        return sum(self.all(name, partition=str(partition)))

    def label(self, name: str, label: str, partition: int) -> str:
        """Returns the text that a label of a partition's figure has; nothing if there is none."""
        number = str(partition)
        found = (one.labels.get(label, "") for one in self.figures.get(name, ()) if one.labels.get(PARTITION) == number)
        return ESCAPED.sub(lambda one: {"n": " "}.get(one[1], one[1]), next(found, ""))

    def partitions(self) -> "list[int]":
        """Returns the partitions that have figures here."""
        found = {one.labels.get(PARTITION, "") for name in ACTIVE for one in self.figures.get(name, ())}
        return sorted(int(number) for number in found if number.isdecimal())


# By these a source says whether it serves a partition: a node, and what runs a host by itself.
SERVING, HAS_HOST = "issuer_partition_serving", "issuer_active"
ACTIVE = (SERVING, HAS_HOST)
