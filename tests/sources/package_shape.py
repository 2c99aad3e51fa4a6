"""The shape of the package issuer_host: which subpackage imports which, and the names and sizes of what it has."""
import ast
import functools
import os
from collections.abc import Iterator
from typing import NamedTuple

from checks import Check, Tally, check_of
from issuer_host import INSTALLED, OF_SOURCES
from issuer_host.facts.paths import HOME

PACKAGE = "issuer_host"
ORDER = (*INSTALLED, *OF_SOURCES)
MOST_METHODS = 20
MOST_LINES = 300
# The module that renames, and the calls that do.
PLACEMENT = f"{PACKAGE}/files/placement.py"
RENAMES = ("os.rename", "os.renames", "os.replace", "shutil.move", "pathlib.Path.rename", "pathlib.Path.replace")
# Names that end like a participle, and are things.
THINGS = ("mapping",)


class ImportedName(NamedTuple):
    """An import of this package: where it is, and the module that it names."""

    place: str
    module: str


class ClassSize(NamedTuple):
    """A class, and how large it is."""

    place: str
    name: str
    methods: int
    lines: int


class Source(NamedTuple):
    """A module of the package, parsed."""

    path: str
    tree: ast.Module

    @property
    def subpackage(self) -> str:
        """Returns the folder of the module in the package; nothing for the package's own first file."""
        parts = self.path.split("/")
        return parts[1] if len(parts) > 2 else ""

    def imports(self) -> Iterator[ImportedName]:
        for node in ast.walk(self.tree):
            if isinstance(node, ast.ImportFrom):
                module = node.module or ""
                names = [f"{module}.{alias.name}" for alias in node.names] if module == PACKAGE else [module]
            elif isinstance(node, ast.Import):
                names = [alias.name for alias in node.names]
            else:
                continue
            for name in names:
                if name.split(".")[0] == PACKAGE:
                    yield ImportedName(f"{self.path}:{node.lineno}", name)

    def classes(self) -> Iterator[ClassSize]:
        for node in ast.walk(self.tree):
            if isinstance(node, ast.ClassDef):
                methods = [one for one in node.body if isinstance(one, (ast.FunctionDef, ast.AsyncFunctionDef))]
                lines = (node.end_lineno or node.lineno) - node.lineno + 1
                yield ClassSize(f"{self.path}:{node.lineno}", node.name, len(methods), lines)


@functools.cache
def sources() -> tuple[Source, ...]:
    """Returns all modules of the package."""
    found = []
    for folder, _, names in os.walk(os.path.join(HOME, PACKAGE)):
        for name in sorted(name for name in names if name.endswith(".py")):
            path = os.path.join(folder, name)
            with open(path, encoding="utf-8") as text:
                found.append(Source(os.path.relpath(path, HOME), ast.parse(text.read())))
    return tuple(sorted(found, key=lambda source: source.path))


def imports_follow_the_order(tally: Tally) -> None:
    """Each subpackage imports only from itself and from those before it."""
    rank = {name: place for place, name in enumerate(ORDER)}
    tally.expect({source.subpackage for source in sources()}, {"", *ORDER}, "the subpackages that there are")
    for source in sources():
        for found in source.imports():
            part = (found.module.split(".") + [""])[1]
            if not source.subpackage:
                tally.fail(f"{found.place} imports {found.module}: the package's own first file imports nothing of it")
            elif rank.get(part, 0) > rank.get(source.subpackage, 0):
                tally.fail(f"{found.place} imports {found.module}, and {part} comes after {source.subpackage}")
            else:
                tally.holds(True, "")


def classes_have_names_of_their_own(tally: Tally) -> None:
    """No two classes of the package have the same name."""
    places: dict[str, list[str]] = {}
    for source in sources():
        for found in source.classes():
            places.setdefault(found.name, []).append(found.place)
    for name, at in sorted(places.items()):
        tally.holds(len(at) == 1, f"{len(at)} classes are named {name}: {', '.join(at)}")


def classes_have_one_job(tally: Tally) -> None:
    """No class has more methods or lines than one job needs."""
    for source in sources():
        for place, name, methods, lines in source.classes():
            tally.holds(methods <= MOST_METHODS, f"{place}: {name} has {methods} methods, {MOST_METHODS} at most")
            tally.holds(lines <= MOST_LINES, f"{place}: {name} has {lines} lines, {MOST_LINES} at most")


def modules_are_named_by_things(tally: Tally) -> None:
    """No module is named by what somebody is doing: its name says what it is about."""
    for source in sources():
        name = os.path.basename(source.path).removesuffix(".py")
        is_thing = name in THINGS or not name.endswith("ing")
        tally.holds(is_thing, f"{source.path}: {name} is no thing: name what it is about, as `dialler` for `dialling`")


def renames_of(tree: ast.AST) -> Iterator[tuple[int, str]]:
    """Yields the lines of a module that give a file another name, and by which call."""
    for node in ast.walk(tree):
        if isinstance(node, ast.ImportFrom):
            for alias in node.names:
                if f"{node.module}.{alias.name}" in RENAMES:
                    yield node.lineno, f"{node.module}.{alias.name}"
        elif isinstance(node, ast.Attribute) and isinstance(node.value, ast.Name):
            if f"{node.value.id}.{node.attr}" in RENAMES:
                yield node.lineno, f"{node.value.id}.{node.attr}"


def files_are_put_in_place_in_one_way(tally: Tally) -> None:
    """One module renames, which syncs the file and its folder; so no other one of the package and its commands does."""
    for text in ("import os\nos.rename(a, b)", "from os import replace", "import shutil\nshutil.move(a, b)"):
        tally.expect(len(list(renames_of(ast.parse(text)))), 1, f"renames in {text!r}")
    found = [(source.path, source.tree) for source in sources()] + list(commands())
    tally.holds(any(path.startswith("deploy/") for path, _ in found), "commands of deploy/ are read")
    for path, tree in found:
        renames = [f"{path}:{line}: {name}" for line, name in renames_of(tree)]
        if path == PLACEMENT:
            tally.expect(len(renames), 2, "renames of the one module")
        else:
            tally.expect(renames, [], f"renames: {PLACEMENT} has put_in_place and move_in_place")


def commands() -> Iterator[tuple[str, ast.Module]]:
    """Yields the commands of deploy/ and the launcher, parsed."""
    for path in ("issuer", *sorted(f"deploy/{name}" for name in os.listdir(os.path.join(HOME, "deploy")))):
        if os.path.isfile(os.path.join(HOME, path)):
            with open(os.path.join(HOME, path), encoding="utf-8") as text:
                first = text.readline()
                if first.startswith("#!") and "python" in first:
                    yield path, ast.parse(text.read())


CHECKS: list[Check] = [
    check_of(files_are_put_in_place_in_one_way),
    check_of(imports_follow_the_order),
    check_of(classes_have_names_of_their_own),
    check_of(classes_have_one_job),
    check_of(modules_are_named_by_things),
]
