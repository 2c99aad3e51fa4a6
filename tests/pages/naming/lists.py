"""The lists of the pages: faults with their edits and tests, definitions to read, versions, and the map."""
import functools
import os
import re
import subprocess

from checks import Tally
from issuer_host import INSTALLED, OF_SOURCES
from issuer_host.facts.paths import HOME, PAGES_OF_DOCS
from pages import faults
from pages.naming.tree import found, tests_of, text_of, words_in

DEFINITIONS = "docs/assurance/reading-guide.md"
CHANGES = "CHANGELOG.md"
MAP = "docs/develop/map.md"
PYTHON, MODULES = "docs/develop/map-python.md", "## The Python: `issuer_host`"
DECISIONS = "docs/develop/decisions/README.md"
MACHINES, BELIEVED = "docs/assurance/premises.md", "## What is believed"
# Pages that a reader of the site reads in a row.
READ = ("README.md", "CONTRIBUTING.md", *PAGES_OF_DOCS, "deploy/*.md")
# The script of a check that a row of what is believed names without one.
OF_RULE = "tests/machines/replication"
# What stands in such a row for a fact that no test can show, with what to do in its place.
NO_TEST = "none: "
ROW = re.compile(r"\|(.*)\| (\w+), (\w+) \|")


def faults_name_edits_and_tests(tally: Tally) -> None:
    """Each fault has its form, and its edits and tests exist; each edit of the tree is named."""
    named = set()
    sections = faults.sections()
    for fault in (fault for section in sections for fault in section.faults):
        for edit in fault.edits:
            named.add(edit.path)
            tally.holds(found(edit.path), f"{faults.DATA}:{fault.line}: there is no {edit.path}")
        for name, crate in fault.tests:
            is_there = not crate or name in tests_of(crate)
            tally.holds(is_there, f"{faults.DATA}:{fault.line}: {crate} has no test {name}")
    for path in (*found("crates/*/must-fail/*.edit"), *found("tests/edits/*/*.edit")):
        tally.holds(path in named, f"{faults.DATA}: no fault names {path}")


def reading_lists_name_definitions(tally: Tally) -> None:
    """Each row of the reading lists has the names of the file of specs that its last cell names, as `crate, Module`."""
    for line, text in enumerate(text_of(DEFINITIONS).split("\n"), 1):
        row = ROW.fullmatch(text)
        if row is None:
            continue
        path = f"crates/{row[2]}/specs/{row[3]}.antt"
        words = words_in(text_of(path)) if found(path) else set()
        # (the first cell with names has those of the row; the others are words about them)
        cell = next((cell for cell in row[1].split(" | ") if "`" in cell), "")
        names = re.findall(r"`([^`]+)`", cell)
        for name in names:
            tally.holds(name in words, f"{DEFINITIONS}:{line}: {path} has no {name}")


@functools.cache
def checks_of_script(path: str) -> frozenset[str]:
    """The names of a script's checks, by its --list."""
    command = [os.path.join(HOME, path), "--list"]
    ran = subprocess.run(command, capture_output=True, text=True, check=True)
    return frozenset(line.partition(":")[0] for line in ran.stdout.splitlines())


def check_named(name: str) -> str:
    """Returns the name of the check that a row means: that which refuses it, where a wrong body is named."""
    return re.sub(r"(?<!^)([A-Z])", r"_\1", f"Refused{name}").lower() if name[0].isupper() else name


def what_is_believed_has_tests(tally: Tally) -> None:
    """Each row of what is believed of a node names the tests that stand for it, and their scripts have them."""
    section = text_of(MACHINES).partition(f"\n{BELIEVED}\n")[2].partition("\n## ")[0]
    rows = [row.strip("|").split(" | ") for row in section.split("\n") if row.startswith("| ")][1:]
    tally.holds(rows, f"{MACHINES} has no rows in {BELIEVED!r}")
    for fact, *tests in rows:
        shown = tests[-1].strip()
        named = re.findall(r"((?:`\w+`(?:, | and )?)+)(?: of `([^`]+)`)?", shown)
        scripts = [path for path in re.findall(r"`([^`]+)`", shown) if "/" in path]
        is_shown = named or scripts or shown.startswith(NO_TEST)
        tally.holds(len(tests) == 1 and is_shown, f"{MACHINES}: no test stands for {fact.strip()!r}")
        for names, script in named:
            missing = set(map(check_named, re.findall(r"`(\w+)`", names))) - checks_of_script(script or OF_RULE)
            tally.expect(missing, set(), f"{MACHINES}: checks that {script or OF_RULE} hasn't")


def changes_begin_with_the_version(tally: Tally) -> None:
    """The first section of CHANGELOG.md is that of VERSION, with a row in its table; `Not released` for one in -dev."""
    version, changes = text_of("VERSION").strip(), text_of(CHANGES)
    is_open = version.endswith("-dev")
    first = re.search(r"(?m)^## (.*)$", changes)
    tally.expect(first and first[1], "Not released" if is_open else version, f"{CHANGES}: its first section")
    has_row = is_open or f"\n| {version} |" in changes
    tally.holds(has_row, f"{CHANGES}: the table has no row for {version}")


def decisions_have_their_form(tally: Tally) -> None:
    """Each page of a decision has a title, context, choice and consequence, and the list has it by its title."""
    listed = dict((name, title) for title, name in re.findall(r"(?m)^- \[(.+)\]\(([^)]+)\)$", text_of(DECISIONS)))
    pages = {os.path.basename(path): text_of(path) for path in found("docs/develop/decisions/[0-9]*.md")}
    tally.expect(sorted(listed), sorted(pages), f"the pages that {DECISIONS} lists")
    for name, text in pages.items():
        tally.expect(
            text.split("\n")[0], f"# {listed.get(name)}", f"docs/develop/decisions/{name}: its title, as listed"
        )
        heads = re.findall(r"(?m)^\*\*(\w+)\.\*\*", text)
        tally.expect(heads, ["Context", "Choice", "Consequence"], f"docs/develop/decisions/{name}: its parts")


def sections_are_linked(tally: Tally) -> None:
    """No page names a section of a page by its title in quotation marks: a link to its anchor can be checked."""
    pages = {path: text_of(path) for pattern in READ for path in found(pattern)}
    titles = {title for text in pages.values() for title in re.findall(r"(?m)^#+ (\S+ .*)$", text)}
    for path, text in pages.items():
        for quoted in re.finditer(r'"([^"]{3,90})"', text):
            title = " ".join(quoted[1].split()).rstrip(".,")
            line = text.count("\n", 0, quoted.start()) + 1
            tally.holds(title not in titles, f"{path}:{line}: link to the section {title!r} by its anchor")


def rows_of_map(page: str, heading: str) -> dict[str, set[str]]:
    """The rows of a section of the map: by the line above them the first words of those that are indented further."""
    section = text_of(page).partition(f"\n{heading}\n")[2].partition("\n## ")[0]
    found_rows: dict[str, set[str]] = {}
    above = ""
    for line in section.split("\n"):
        if re.match(r" {4}\S", line):
            above = line.strip().partition(":")[0]
            found_rows[above] = set()
        elif re.match(r" {6}\S", line):
            found_rows[above].add(line.split()[0])
    return found_rows


def map_has_each_crate_and_module(tally: Tally) -> None:
    """Each crate has a row in the map, and each module of issuer_host in the rows of its subpackage; no row is left."""
    crates = {os.path.basename(os.path.dirname(path)) for path in found("crates/*/src")}
    tally.expect(set().union(*rows_of_map(MAP, "## The crates").values()), crates, f"the crates of {MAP}")
    rows = rows_of_map(PYTHON, MODULES)
    tally.expect(list(rows), [*INSTALLED, *OF_SOURCES], f"the subpackages of {PYTHON}, in their order")
    for subpackage, named in rows.items():
        paths = found(f"issuer_host/{subpackage}/*.py")
        modules = {os.path.basename(path).removesuffix(".py") for path in paths} - {"__init__"}
        tally.expect(sorted(named - modules), [], f"rows of {subpackage} in {PYTHON} without a module")
        tally.expect(sorted(modules - named), [], f"modules of {subpackage} without a row in {PYTHON}")
