"""The definitions of crates/*/specs: each with its comment, what its file imports, and what it defines."""
import glob
import os
import re
from collections.abc import Iterable
from typing import Optional

from issuer_host.facts.paths import HOME

ITEM = re.compile(r"^( *)(?:(?:abbrev|unfoldable) (?:pub )?|pub (?:record|data) |(?:record|data) )(\S+)")
OTHER = re.compile(r"^ *(?:use |pub use |pub mod |mod |module |infix)")
USE = re.compile(r"^(?:ghost |pub )*use Rattle\.(\w+)\.specs\.([\w.]+?)(?:\.\{(.*)\})?(?: as (\w+))?;?$")
PROOF = re.compile(r"^use Rattle\.(\w+)\.proofs\.[\w.]+\.\{(.*)\}$")
# What names the only value of which something holds. Its second argument is a proof that there is one.
ONLY = re.compile(r"(?<!\S)the \(")
HANDED_UP = re.compile(r"(?m)^pub use Rattle\.(\w+)\.specs\.(\w+)$")
WHOLE = re.compile(r"^(?:pub )?use Rattle\.(\w+)\.specs\.([\w.]+)(?: .*|\{[^}]*)?$")
# Modules of a crate's code. Their types are where a path of definitions ends.
CODE = "declared."
LIST = "Lib"
CONSTRUCTOR = re.compile(r"^ *(?:pub )?([^\s:(]+) :")
ENDING = ".antt"

# A definition: its crate, its module and its name.
Key = tuple[str, str, str]
# What a file imports, by the name that it has there.
Imports = dict[str, Key]


def text_of(path: str) -> str:
    with open(os.path.join(HOME, path), encoding="utf-8") as text:
        return text.read()


def imports_in(text: str) -> Imports:
    """What each line of imports brings in, by the name that it has here."""
    imported = {}
    for found in filter(None, map(USE.match, text.split("\n"))):
        for words in re.findall(r"[^\s,]+(?: as [^\s,]+)?", found[3] or ""):
            name, _, under = words.partition(" as ")
            imported[under or name] = (found[1], found[2], name)
    return imported


def end_of_bracket(text: str, at: int) -> int:
    """The offset behind the round bracket that closes the one at an offset."""
    depth = 0
    for place in range(at, len(text)):
        depth += {"(": 1, ")": -1}.get(text[place], 0)
        if not depth:
            return place + 1
    return len(text)


def without_proofs(text: str) -> str:
    """A text without the proofs that `the` is given. What they compute is fixed by its first argument."""
    found = ONLY.search(text)
    if found is None:
        return text
    end = end_of_bracket(text, found.end() - 1)
    proof = re.match(r"\s*\(", text[end:])
    behind = end_of_bracket(text, end + proof.end() - 1) if proof else end
    return text[:end] + without_proofs(text[behind:])


def held_of_one(text: str) -> str:
    """What holds of the only value that a definition is, by `the`; or nothing."""
    found = ONLY.search(text)
    return text[found.end() - 1 : end_of_bracket(text, found.end() - 1)] if found else ""


def modules_handed_up(text: str) -> dict[str, tuple[str, str]]:
    """The modules of lower crates that a crate's list hands up, by their names there."""
    return {module: (crate, module) for crate, module in HANDED_UP.findall(text)}


class Definition:
    """An item of a file of specs: its lines, the comment before it, and its constructors."""

    def __init__(self, crate: str, module: str, name: str, line: int, indent: int, comment: list[str]) -> None:
        self.crate = crate
        self.module = module
        self.name = name
        self.line = line
        self.indent = indent
        self.comment = comment
        self.lines: list[str] = []
        self.constructors: list[str] = []

    @property
    def key(self) -> Key:
        return self.crate, self.module, self.name

    def sentence(self) -> str:
        """The comment in one line, with its first letter as it stands."""
        return " ".join(" ".join(self.comment).split())

    def add(self, line: str) -> None:
        self.lines.append(line)
        made = CONSTRUCTOR.match(line)
        if made and len(self.lines) > 1 and " data " in self.lines[0]:
            self.constructors.append(made[1])


class Module:
    """A file of definitions: its first comment, what it defines, and what it imports under which name."""

    def __init__(self, crate: str, name: str, path: str) -> None:
        self.crate = crate
        self.name = name
        self.path = path
        self.definitions: list[Definition] = []
        self.imported: Imports = {}
        # The names that come from proofs of a crate, each with the crate.
        self.proofs: dict[str, str] = {}
        # Imports that bring in no names one by one: (crate, module).
        self.whole: list[tuple[str, str]] = []
        # The item that the lines belong to, and the comment before the next one.
        self.item: Optional[Definition] = None
        self.comment: list[str] = []
        text = text_of(path)
        self.handed_up = modules_handed_up(text)
        lines = text.split("\n")
        for number, line in enumerate(lines, 1):
            self.read(number, line)
        self.head = head_of(lines)
        self.own = {item.name: item.key for item in self.definitions}
        self.own |= {name: item.key for item in self.definitions for name in item.constructors}

    def read(self, number: int, line: str) -> None:
        bare = line.strip()
        found = ITEM.match(line)
        if found and (self.item is None or len(found[1]) <= self.item.indent):
            self.item = Definition(self.crate, self.name, found[2], number, len(found[1]), self.comment)
            self.item.add(line)
            self.definitions.append(self.item)
            self.comment = []
        elif OTHER.match(line):
            self.item = None
            self.comment = []
            self.imported |= imports_in(line)
            self.whole += WHOLE.findall(line)
            self.proofs |= {name: crate for crate, names in PROOF.findall(line) for name in names.split(", ")}
        elif bare.startswith("--"):
            self.comment.append(bare[2:].strip())
        elif not bare:
            self.comment = []
        elif self.item is not None:
            self.item.add(line)
            # (a comment among an item's lines is of its next field)
            self.comment = []


def head_of(lines: list[str]) -> str:
    """The comment that a file begins with, in one line."""
    head = []
    for line in lines:
        if not line.strip().startswith("--"):
            break
        head.append(line.strip()[2:].strip())
    return " ".join(head)


class Specs:
    """The files of definitions of all crates, and what an imported name means."""

    def __init__(self, modules: Iterable[Module]) -> None:
        self.modules = {(module.crate, module.name): module for module in modules}
        self.crates = {crate for crate, _ in self.modules}

    def module(self, crate: str, name: str) -> Optional[Module]:
        """The file that a crate has under this name: its own, or one that its list hands up from a lower crate."""
        if (crate, name) in self.modules:
            return self.modules[crate, name]
        listed = self.modules.get((crate, LIST))
        at = listed.handed_up.get(name) if listed else None
        return self.module(*at) if at else None

    def resolved(self, key: Key, seen: tuple[Key, ...] = ()) -> Optional[Key]:
        """The definition that an imported name means, or None for a type of the code or a name of the toolchain."""
        crate, module, name = key
        at = self.module(crate, module)
        if at is None or key in seen:
            return None
        if name in at.own:
            return at.own[name]
        return self.resolved(at.imported[name], (*seen, key)) if name in at.imported else None

    def unresolved(self, module: Module) -> list[str]:
        """The imports of this repository's definitions, in a file of them, that lead to no definition."""
        names = [key for key in module.imported.values() if self.must_resolve(key[0], key[1])]
        missing = [".".join(key) for key in names if not self.resolved(key)]
        whole = [at for at in module.whole if self.must_resolve(*at)]
        missing += [".".join(at) for at in whole if at not in module.handed_up.values() or not self.module(*at)]
        return missing

    def computing_proofs(self, module: Module) -> list[str]:
        """The proofs of this repository that a definition cites, and not to show that `the` names one value alone."""
        text = without_proofs("\n".join(line for item in module.definitions for line in item.lines))
        words = set(re.split(r"[\s(){}\[\],;.]+", text))
        return sorted(name for name, crate in module.proofs.items() if crate in self.crates and name in words)

    def must_resolve(self, crate: str, module: str) -> bool:
        """Whether a module has definitions of this repository."""
        return crate in self.crates and not f"{module}.".startswith(CODE)


def load() -> Specs:
    """Reads all files of specs."""
    modules = []
    for path in sorted(glob.glob(f"crates/*/specs/**/*{ENDING}", root_dir=HOME, recursive=True)):
        _, crate, _, rest = path.split("/", 3)
        name = rest.removesuffix(ENDING).replace("/", ".")
        modules.append(Module(crate, name, path))
    return Specs(modules)
