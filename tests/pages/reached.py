"""Which definitions the contract of `issue` reaches, by chapters: a clause of the call each, and one for its devices.

A definition is an item of crates/*/specs/*.antt. It is reached if its name, resolved by the file's imports, occurs in a
clause of `issue`, in a trait of its devices, or in a definition that is reached. An import may name a module that a
crate's Lib.antt hands up from a lower crate. Fields and constructors belong to their definition. A path ends at a type
of the code and at the toolchain's library. If a bound name equals a definition's, the definition counts as used. A
definition is in the chapter of the first clause that reaches it.
"""
import functools
import os
import re
from collections.abc import Iterable, Sequence
from typing import NamedTuple

from issuer_host.facts.paths import HOME
from sources.specs import Definition, Imports, Key, Specs, imports_in, load, text_of

TOP = "crates/issuer_top/src/top_call.rt"
CALL = "issue"
DEVICES = ("crates/issuer_base/src/outside.rt", "crates/issuer_base/src/outside/store.rt")
SPLIT = re.compile(r"[\s(){}\[\],;.]+")
CLAUSE = re.compile(r"ensures (\w+) ")
SERVE = "serve"
DEVICES_CHAPTER = "devices"


class Root(NamedTuple):
    """A text that names definitions, its chapter, and the imports of its file."""

    chapter: str
    text: str
    imported: Imports


def used(text: str, known: Iterable[str]) -> set[str]:
    """Which of the known names a text has. A field or a parameter of the same name counts too: that lists more, never
    less.
    """
    found = set(SPLIT.split(re.sub(r"--.*|//.*", "", text)))
    return {name for name in known if all(part in found for part in name.split("◌") if part)}


def clauses_of_call() -> list[Root]:
    """The clauses of the call, each with the imports of its file."""
    text = text_of(TOP)
    begun = text.index(f"pub fn {CALL}<")
    parts = CLAUSE.split(text[text.index("ensures", begun) : text.index("\n{\n", begun)])
    return [Root(label, clause, imports_in(text[:begun])) for label, clause in zip(parts[1::2], parts[2::2])]


def clauses_of_devices() -> Root:
    """The text of the traits that the call's devices meet, and the imports of their files."""
    lines = "\n".join(text_of(path) for path in DEVICES).split("\n")
    kept = [line for line in lines if not line.startswith("ghost use")]
    return Root(DEVICES_CHAPTER, "\n".join(kept), imports_in("\n".join(lines)))


class Reached:
    """Each definition that some texts reach, with the one that it was first reached from, and its chapter."""

    def __init__(self, specs: Specs, roots: Iterable[Root]) -> None:
        self.specs = specs
        self.by_key = {item.key: item for module in specs.modules.values() for item in module.definitions}
        self.first: dict[Key, Key | None] = {}
        self.chapters: dict[str, list[Key]] = {}
        self.waiting: list[Definition] = []
        for root in roots:
            self.add(root)

    def add(self, root: Root) -> None:
        """Reaches what a text names, and what that names."""
        self.chapters[root.chapter] = []
        for name in sorted(used(root.text, root.imported)):
            self.reach(self.specs.resolved(root.imported[name]), None, root.chapter)
        while self.waiting:
            self.go_on(self.waiting.pop(0), root.chapter)

    def reach(self, key: Key | None, by: Key | None, chapter: str) -> None:
        if key in self.by_key and key is not None and key not in self.first:
            self.first[key] = by
            self.chapters[chapter].append(key)
            self.waiting.append(self.by_key[key])

    def go_on(self, item: Definition, chapter: str) -> None:
        module = self.specs.modules[item.crate, item.module]
        names = module.imported | module.own
        for name in sorted(used("\n".join(item.lines), names)):
            key = module.own[name] if name in module.own else self.specs.resolved(names[name])
            self.reach(key, item.key, chapter)

    def lines(self, keys: Iterable[Key]) -> str:
        """How many lines of specs some definitions are."""
        return f"{sum(len(self.by_key[key].lines) for key in keys):,}"


def place(words: Sequence[str], word: str) -> int:
    return words.index(word) if word in words else len(words)


def order_of(modules: Iterable[tuple[str, str]]) -> list[tuple[str, str]]:
    """The modules in reading order: the lowest crate first, and in a crate as its specs/Lib.antt has them."""
    rows = [row for row in text_of("crates.txt").split("\n") if row and not row.startswith("#")]
    crates = [row.split()[0].rstrip(":") for row in rows]
    files: dict[str, list[str]] = {}
    for crate, _ in modules:
        path = f"crates/{crate}/specs/Lib.antt"
        is_there = os.path.isfile(os.path.join(HOME, path))
        files[crate] = re.findall(r"^pub mod (\w+)", text_of(path), re.M) if is_there else []
    return sorted(modules, key=lambda key: (place(crates, key[0]), place(files[key[0]], key[1].split(".")[0]), key))


def figures(reached: Reached) -> str:
    more = reached.chapters[DEVICES_CHAPTER]
    serve = reached.chapters[SERVE]
    of_call = [key for chapter, keys in reached.chapters.items() if chapter != DEVICES_CHAPTER for key in keys]
    return (
        f"The contract of `issue` reaches {len(of_call)} definitions, {reached.lines(of_call)} lines of `specs/`; "
        f"its clause `{SERVE}` reaches {len(serve)} of them, {reached.lines(serve)} lines; "
        f"the clauses of its devices' traits reach {len(more)} more, {reached.lines(more)} lines."
    )


class Contract(NamedTuple):
    """The files of specs, the texts that cite them, and all that these reach."""

    specs: Specs
    roots: list[Root]
    reached: Reached

    @property
    def figures(self) -> str:
        return figures(self.reached)

    @property
    def of_serve(self) -> str:
        return f"{len(self.reached.chapters[SERVE])} definitions for `{SERVE}`"


@functools.cache
def contract() -> Contract:
    """The contract of the call, as the tree has it."""
    specs, roots = load(), [*clauses_of_call(), clauses_of_devices()]
    return Contract(specs, roots, Reached(specs, roots))
