"""The table "The edge to the disk" of docs/assurance/premises.md: it names functions, checks and mutants."""
import glob
import os
import re
from collections.abc import Collection

from issuer_host.facts.paths import HOME

from program.durability.tally import Tally

PAGE, TITLE = "docs/assurance/premises.md", "The edge to the disk"
COLUMNS = ("what is done", "where", "premise on the system", "checks", "wrong bodies")
SOURCES, MUTANTS = "crates/store_edge/src", "tests/mutants/store_edge"
DEFINED = re.compile(r"\b(?:fn|struct|enum|const|impl)\s+(\w+)")
SPAN = re.compile(r"`([^`]+)`")
FILE_OF_LINES = re.compile(r"`(\w+\.rt)`\s+\((\d+)\)")


def section_of_page() -> str:
    with open(os.path.join(HOME, PAGE), encoding="utf-8") as text:
        return text.read().partition(f"\n## {TITLE}\n")[2].partition("\n## ")[0]


def rows_of(section: str) -> list[dict[str, list[str]]]:
    """The rows of the section's table: of each column the names in it."""
    table = [line.strip("|").split("|") for line in section.split("\n") if line.startswith("|")]
    names = [cell.strip() for cell in table[0]] if table else []
    return [dict(zip(names, map(SPAN.findall, row))) for row in table[2:]]


def text_of(path: str) -> str:
    with open(path, encoding="utf-8") as text:
        return text.read()


def tests_of_mutants() -> dict[str, str]:
    """The test that each mutant names: a check of tests/program/durable, or the path of another script."""
    found = {}
    for path in glob.glob(os.path.join(HOME, MUTANTS, "*.edit")):
        words = text_of(path).partition("\n")[0].removeprefix("test: ").split()
        found[os.path.basename(path).removesuffix(".edit")] = (
            words[1] if words[0] == "tests/program/durable" else words[0]
        )
    return found


def names_what_is_there(tally: Tally, checks: Collection[str]) -> None:
    """The table of the page on the edge names functions, checks and mutants that exist, and all checks and mutants."""
    section = section_of_page()
    rows = rows_of(section)
    tally.holds(len(rows) > 10, f"{PAGE}: the table of `{TITLE}` has {len(rows)} rows")
    defined = {name for path in glob.glob(f"{HOME}/{SOURCES}/*.rt") for name in DEFINED.findall(text_of(path))}
    mutants = tests_of_mutants()
    for number, row in enumerate(rows, 1):
        what = f"{PAGE}, row {number} of `{TITLE}`"
        tally.expect(tuple(row), COLUMNS, f"{what}: the columns")
        tally.expect(sorted(set(row["where"]) - defined), [], f"{what}: functions that {SOURCES} hasn't")
        unknown = [name for name in row["checks"] if name not in checks and not is_script(name)]
        tally.expect(unknown, [], f"{what}: checks that no script has")
        tally.holds(bool(row["checks"]), f"{what}: no check stands for it")
        for name in row["wrong bodies"]:
            tally.holds(mutants.get(name) in row["checks"], f"{what}: {name} is refused by {mutants.get(name)}")
    named = set(SPAN.findall(section))
    tally.expect(sorted(set(checks) - named), [], f"{PAGE}, `{TITLE}`: checks that it doesn't name")
    tally.expect(sorted(set(mutants) - named), [], f"{PAGE}, `{TITLE}`: mutants that it doesn't name")
    counts = {name: text_of(f"{HOME}/{SOURCES}/{name}").count("\n") for name, _ in FILE_OF_LINES.findall(section)}
    told = {name: int(lines) for name, lines in FILE_OF_LINES.findall(section)}
    tally.expect(told, counts, f"{PAGE}, `{TITLE}`: the lines of each file")


def is_script(name: str) -> bool:
    return name.startswith("tests/") and os.access(os.path.join(HOME, name), os.X_OK)
