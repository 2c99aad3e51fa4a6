"""Draws a view in a terminal."""
from rich.console import Group, RenderableType
from rich.table import Table as TerminalTable
from rich.text import Text

from issuer_host.status.view import Plot, Table, View, word_of

RED = "bold bright_red"
BARS = " ▁▂▃▄▅▆▇█"
# A narrower terminal has fewer columns.
WIDE = 124
# So many of the last points are drawn.
POINTS = 60


def bars(plot: Plot) -> str:
    most = max(plot.points) or 1.0
    return "".join(BARS[round(value / most * (len(BARS) - 1))] for value in plot.points[-POINTS:])


def table_of(table: Table, width: int) -> TerminalTable:
    """Returns a table; a red row has a mark for terminals without colours."""
    shown = [place for place, head in enumerate(table.heads) if width >= WIDE or head in table.narrow]
    found = TerminalTable(title=table.title, title_justify="left", box=None, pad_edge=False, title_style="bold")
    found.add_column("")
    for place in shown:
        is_word = place < table.words
        found.add_column(table.heads[place], justify="left" if is_word else "right", header_style="dim", no_wrap=True)
    for row in table.rows:
        style = RED if row.is_red else ""
        found.add_row("!" if row.is_red else " ", *(row.cells[place] for place in shown), style=style)
    return found


def drawn_of(view: View, width: int) -> Group:
    """Returns all that is drawn in a terminal of so many columns."""
    parts: "list[RenderableType]" = [Text(view.sentence, style="bold" if view.is_well else RED), Text()]
    for todo in view.todos:
        parts.append(Text.assemble((f"{word_of(todo)} ", RED), todo.what))
        parts.append(Text(f"     {todo.command}"))
    parts += [Text()] * bool(view.todos)
    for table in view.tables:
        parts += [table_of(table, width), Text()]
    parts += [Text(f"{at} {what}") for at, what in view.changes]
    for plot in view.plots:
        parts.append(Text(f"{plot.title}: {plot.value}, at most {plot.most}\n{bars(plot)}"))
    parts.append(Text(view.at, style="dim"))
    return Group(*parts)
