"""What the tree has: the words of each crate and of the scripts, options, crates, edits, and the programs' commands."""
import functools
import glob
import os
import re
import subprocess
from collections.abc import Set

from issuer_host.facts.paths import HOME

PARTS = ("src", "specs", "proofs")
SCRIPTS = (
    *("issuer", "issuer_host/**/*.py", ".ci/*", "tests/*", "tests/edits/run", "tests/mutants/try_all", "bench/*"),
    *("tools/*", "deploy/*", "deploy/units/*", "deploy/man/*", "tests/**/*.py", "crates.txt", "examples/*"),
    *("crates/*/args", "crates/*/stdout", "tests/reverted/*"),
    *(f"tests/{folder}/*" for folder in ("program", "pages", "sources", "bridge", "deployment", "gateway", "machines")),
)
# Programs whose first word is a command; their texts of usage have all of them.
PROGRAMS = ("./issuer", "tools/card")

# Words that stand in a code span and are no name of the tree, each with its reason.
ALLOWED = {
    "rt": "the toolchain's command",
    "out": "made by the toolchain in each crate, never committed",
    "bin/rt": "that command, in the toolchain's kit",
    "default": "a method that a derive writes",
    "lackey": "a tool of valgrind, which counts loads",
    "rabbitmq_prometheus": "a plugin of the broker",
    "amqps": "the scheme of a URL",
    "--help": "an option of other programs, which this one refuses",
    ".build/issuer": "made by `./issuer prove`, never committed",
    "LINE": "a part of `stop 8 LINE`",
}

OPTION = re.compile(r"--[a-z][a-z-]+")
WORD = re.compile(r"[^\W\d][\w']*(?:-[\w']+)*")
DEFINED = re.compile(r"\b(?:struct|enum|trait|mod|type|impl|for|record|data|abbrev pub|unfoldable pub) ([^\W\d]\w*)")
# In a path a word of capitals stands for any name.
ANY_NAME = re.compile(r"(?<![\w.-])[A-Z]{3,}(?![\w.-])")


def text_of(path: str) -> str:
    with open(os.path.join(HOME, path), encoding="utf-8", errors="replace") as text:
        return text.read()


@functools.cache
def found(pattern: str) -> list[str]:
    return sorted(glob.glob(pattern, root_dir=HOME, recursive=True))


def usage_of(program: str) -> str:
    """What a program prints for --help."""
    command = [os.path.join(HOME, program), "--help"]
    return subprocess.run(command, capture_output=True, text=True, check=False).stdout


def words_in(text: str) -> set[str]:
    words = set(WORD.findall(text))
    return words | {part for word in words if "-" in word for part in word.split("-")}


def without_comments(text: str, path: str) -> str:
    return re.sub(r"(?m)//.*$" if path.endswith(".rt") else r"(?m)--.*$", "", text)


@functools.cache
def tests_of(crate: str) -> Set[str]:
    """The names of a crate's tests."""
    texts = [text_of(path) for path in found(f"crates/{crate}/src/**/*.rt")]
    return {name for text in texts for name in re.findall(r"#\[test\]\s+fn (\w+)", text)}


class Tree:
    def __init__(self) -> None:
        self.crates = {os.path.basename(os.path.dirname(path)) for path in found("crates/*/src")}
        # The words of each crate, and those of its code alone; the crates that define a name; all options.
        self.of_crate: dict[str, set[str]] = {}
        self.code_of: dict[str, set[str]] = {}
        self.defined: dict[str, set[str]] = {}
        self.options: set[str] = set()
        for crate in self.crates:
            self.read_crate(crate)
        self.edits = self.read_edits()
        names = {name.removesuffix(".edit") for edits in self.edits.values() for name in edits}
        self.words = set().union(*self.of_crate.values(), self.crates, *self.edits.values(), names)
        self.words |= set(ALLOWED) | set(found("*"))
        self.commands = {
            program: set(re.findall(rf"{re.escape(program)} ([a-z]+)", usage_of(program))) for program in PROGRAMS
        }
        self.read_scripts()

    def read_crate(self, crate: str) -> None:
        words = self.of_crate.setdefault(crate, set())
        code = self.code_of.setdefault(crate, set())
        for part in PARTS:
            for path in found(f"crates/{crate}/{part}/**/*.*"):
                text = text_of(path)
                self.options |= set(OPTION.findall(text)) if part == "src" else set()
                text = without_comments(text, path)
                (code if part == "src" else words).update(words_in(text))
                words.add(os.path.splitext(os.path.basename(path))[0])
                for name in DEFINED.findall(text):
                    self.defined.setdefault(name, set()).add(crate)
        words |= code

    def read_edits(self) -> dict[str, set[str]]:
        """The files of each crate's edits, those that are kept aside too."""
        edits = {
            crate: {os.path.basename(path) for path in found(f"crates/{crate}/must-fail/*.edit")}
            for crate in self.crates
        }
        for path in (*found("tests/edits/*/*.edit"), *found("tests/mutants/*/*.edit")):
            edits.setdefault(path.split("/")[2], set()).add(os.path.basename(path))
        return edits

    def read_scripts(self) -> None:
        for path in (path for pattern in SCRIPTS for path in found(pattern)):
            if os.path.isfile(os.path.join(HOME, path)) and not path.endswith(".md"):
                name = os.path.basename(path)
                self.words |= words_in(text_of(path)) | {name, name.removesuffix(".edit")}
                self.options |= set(OPTION.findall(text_of(path)))

    def has_path(self, name: str, page: str, last: str = "") -> bool:
        """Whether there is a file or folder: from the top, from the page's folder, or in a crate."""
        folder = os.path.dirname(page)
        name = ANY_NAME.sub("*", name.rstrip("/").removeprefix("./"))
        places = [name, f"{folder}/{name}", f"crates/{name}", f"issuer_host/{name}"]
        crate = folder if folder.startswith("crates/") else f"crates/{last or '*'}"
        if name.split("/")[0] in (*PARTS, "must-fail", "out"):
            places.append(f"{crate}/{name}")
        if "/" not in name:
            places += [f"{crate}/{part}/**/{name}" for part in PARTS]
        return name == "out" or any(found(place) for place in places)

    def has_word(self, name: str, crate: str = "") -> bool:
        name = name.rstrip("!")
        if crate:
            return name in self.of_crate[crate] or f"{name}.edit" in self.edits[crate]
        return name in self.words

    def has_edit(self, name: str) -> bool:
        return any(name in edits for edits in self.edits.values())

    def has_member(self, owner: str, member: str, crate: str = "") -> bool:
        """Whether a crate that defines the owner has this member in its code.

        Of a variable or a type parameter any crate may have it.
        """
        if not owner[1:] or owner[0].islower() and owner not in self.defined:
            return self.has_word(member)
        crates = {crate} if crate else self.defined.get(owner, set())
        return member in ALLOWED or any(member in self.code_of[name] or owner == "Rattle" for name in crates)
