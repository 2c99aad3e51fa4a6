"""Draws a view as HTML, and its plots as SVG."""
from collections.abc import Sequence
from typing import NamedTuple

import jinja2

from issuer_host.status.page_texts import FRAME, PART
from issuer_host.status.view import Plot, Table, View, seconds

WIDTH, HEIGHT = 600.0, 80.0
ENVIRONMENT = jinja2.Environment(autoescape=True, trim_blocks=True)
FRAME_TEMPLATE, PART_TEMPLATE = ENVIRONMENT.from_string(FRAME), ENVIRONMENT.from_string(PART)


class DrawnPlot(NamedTuple):
    """A plot with its paths."""

    title: str
    value: str
    most: str
    since: str
    line: str
    area: str


def path_of(values: Sequence[float]) -> str:
    """Returns the path of a line through values, the last one at the right end."""
    most = max(max(values), 1e-9)
    step = WIDTH / max(len(values) - 1, 1)
    places = [(at * step, HEIGHT - 4 - (HEIGHT - 8) * value / most) for at, value in enumerate(values)]
    return "M" + "L".join(f"{across:.1f} {down:.1f}" for across, down in places)


def drawn(plot: Plot) -> DrawnPlot:
    line = path_of(plot.points)
    area = f"{line}L{WIDTH:.0f} {HEIGHT:.0f}L0 {HEIGHT:.0f}Z"
    return DrawnPlot(plot.title, plot.value, plot.most, seconds(plot.since), line, area)


def kind_of_column(table: Table, place: int) -> str:
    return "word" if place < table.words else "number"


def part_of(view: View, look: int) -> str:
    """Returns the part of the page that changes. `look` is the number of the look that made the view."""
    return str(
        PART_TEMPLATE.render(view=view, plots=[drawn(plot) for plot in view.plots], look=look, kind=kind_of_column)
    )


def page_of(view: View, look: int) -> str:
    return str(FRAME_TEMPLATE.render(part=part_of(view, look)))
