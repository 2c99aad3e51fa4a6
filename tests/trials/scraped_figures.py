"""Figures that real faults make, scraped one sample after another, and the alerts that fire from them by promtool."""
import os
import re
import shutil
import subprocess
import tempfile
from collections.abc import Callable, Iterable, Iterator, Mapping
from typing import NamedTuple

from issuer_host.facts.paths import HOME

RULES = os.path.join(HOME, "deploy", "alerts.yml")
# A figure as a page has it: its name, its labels, its value.
LINE = re.compile(r"(?m)^(issuer_\w+)(?:\{(.*)\})? ([-+.e0-9]+)$")
NAMES = re.compile(r"\bissuer_\w+\b|\bup\b")
TEST = """\
rule_files: [{rules}]
evaluation_interval: {interval:.0f}s
tests:
  - interval: {interval:.0f}s
    input_series:
{series}
    promql_expr_test:
{tests}
"""


class Target(NamedTuple):
    """Who is scraped: the labels that Prometheus adds, and the text of its figures; nothing if it gives none."""

    labels: str
    page: str


class Moment(NamedTuple):
    """A number of samples, and which alerts have to fire there."""

    sample: int
    firing: "tuple[str, ...]"


class ScrapedFigures:
    """The series of some targets, as Prometheus would have them, and which of some alerts have to fire when."""

    def __init__(self, targets: "Callable[[], Iterable[Target]]", alerts: "Iterable[str]", interval: float) -> None:
        self.targets, self.alerts, self.interval = targets, tuple(alerts), interval
        self.count = 0
        self.values: "dict[str, dict[int, float]]" = {}
        self.moments: "list[Moment]" = []

    def scrape(self, until: int) -> None:
        """Takes a sample, which stands for all up to a number that were due meanwhile."""
        found = dict(self.figures())
        for number in range(self.count, until + 1):
            for name, value in found.items():
                self.values.setdefault(name, {})[number] = value
        self.count = until + 1

    def figures(self) -> "Iterator[tuple[str, float]]":
        for labels, page in self.targets():
            yield f"up{{{labels}}}", float(bool(page))
            for name, own, value in LINE.findall(page):
                yield f"{name}{{{', '.join(filter(None, (own, labels)))}}}", float(value)

    def expect(self, *firing: str) -> None:
        """At the last sample just these of the alerts fire."""
        self.moments.append(Moment(self.count - 1, firing))

    def why_not(self) -> str:
        """Has promtool evaluate the rules over the figures. Returns what it says if other alerts fire."""
        assert shutil.which("promtool")
        with tempfile.TemporaryDirectory() as folder:
            path = os.path.join(folder, "test.yml")
            with open(path, "w", encoding="utf-8") as text:
                text.write(self.text())
            done = subprocess.run(["promtool", "test", "rules", path], capture_output=True, text=True, check=False)
        return f"{done.stdout}{done.stderr}" if done.returncode else ""

    def text(self) -> str:
        # (in a text of YAML an apostrophe is doubled)
        rows = ((name.replace("'", "''"), self.row(row)) for name, row in self.kept())
        series = "\n".join(f"      - {{series: '{name}', values: '{row}'}}" for name, row in rows)
        tests = "\n".join(line for moment in self.moments for line in self.tests_of(moment))
        return TEST.format(rules=RULES, interval=self.interval, series=series, tests=tests)

    def kept(self) -> "Iterable[tuple[str, Mapping[int, float]]]":
        """Yields the series that rules look at."""
        with open(RULES, encoding="utf-8") as text:
            names = set(NAMES.findall(text.read()))
        return ((name, row) for name, row in sorted(self.values.items()) if name.partition("{")[0] in names)

    def row(self, row: "Mapping[int, float]") -> str:
        """Returns a series' samples: one that ends is stale, as where its target gives no figures."""
        found = []
        for number in range(self.count):
            was = number - 1 in row
            found.append(f"{row[number]:g}" if number in row else "stale" if was else "_")
        return " ".join(found)

    def tests_of(self, moment: Moment) -> "Iterator[str]":
        at = f"{moment.sample * self.interval:.0f}s"
        for name in self.alerts:
            yield f"""      - expr: count(ALERTS{{alertname="{name}", alertstate="firing"}}) > bool 0"""
            yield f"        eval_time: {at}"
            yield "        exp_samples: [" + '{labels: "{}", value: 1}' * (name in moment.firing) + "]"
