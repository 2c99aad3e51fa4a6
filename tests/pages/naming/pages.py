"""A page: whether each name in its spans, blocks, commands and links exists in the tree."""
import os
import re

from checks import Tally
from issuer_host.facts.paths import HOME
from pages.naming.tree import ALLOWED, PARTS, Tree, found, text_of

NAME = re.compile(r"[^\W\d][\w']*(?:-[\w']+)*!?")
A_NAME = re.compile(rf"{NAME.pattern}(?:\(\))?")
A_MEMBER = re.compile(rf"{NAME.pattern}(?:(?:::|\.){NAME.pattern})+(?:\(\))?")
HEXADECIMAL = re.compile(r"(?=\w*[0-9])[0-9a-f]{8,}")
ENDING = re.compile(r"\.(?:rt|antt|md|txt|edit|py)$")
# A crate that is named before a span, or behind it.
CRATE_BEFORE = re.compile(r"`(\w+)`'s $()")
CRATE_BEFORE_A_MODULE = re.compile(r"`(\w+)`, (?:`[^`]+` and )?$()")
CRATE_BEHIND = re.compile(r" \((?:of )?`?(\w+)`?\)| (?:of|in) `?(\w+)")
# In a block only what begins so is taken for a path of this repository.
OWN_PATH = re.compile(r"(?:\./)?(?:crates|docs|tests|bench|examples|issuer)\b")


def is_path(name: str) -> bool:
    if name.startswith("/") or not re.fullmatch(r"[\w.*/+-]+", name):
        return False
    return "/" in name or bool(ENDING.search(name))


def is_compound(word: str) -> bool:
    return "_" in word or "::" in word or bool(re.search(r"[a-z][A-Z]", word))


class Page:
    """A page beside the tree. Each name that is looked up counts."""

    def __init__(self, tally: Tally, tree: Tree, page: str) -> None:
        self.tally = tally
        self.tree = tree
        self.page = page
        self.line = 0
        # The crate that the paragraph, list item or row named last.
        self.last = ""

    def note(self, holds: object, what: str) -> None:
        self.tally.holds(holds, f"{self.page}:{self.line}: {what}")

    def read(self) -> None:
        is_fenced = False
        for self.line, text in enumerate(text_of(self.page).split("\n"), 1):
            if not text or re.match(r"\s*(?:\d+\.|[-|#])", text):
                self.last = ""
            self.commands(text)
            if text.startswith("```"):
                is_fenced = not is_fenced
            elif is_fenced or (text.startswith("    ") and "`" not in text):
                self.block(text)
            else:
                self.spans(text)
                self.links(re.sub(r"`[^`]+`", "", text))

    def commands(self, text: str) -> None:
        for program, names in self.tree.commands.items():
            for command in re.findall(rf"{re.escape(program)} (?:--never-build )?([a-z]+)", text):
                self.note(command in names, f"{program} has no command {command}")

    def block(self, text: str) -> None:
        if text.split()[:1] in (["rt"], ["$"]):
            return
        for word in text.split():
            if re.fullmatch(r"--[a-z-]+", word) or (is_path(word) and OWN_PATH.match(word)):
                self.name(word)

    def spans(self, text: str) -> None:
        for span in re.finditer(r"`([^`]+)`", text):
            before, behind = text[: span.start()], text[span.end() :]
            self.last = self.crate_of_cell(before) or self.last
            self.span(span[1], before, behind)

    def crate_of_cell(self, before: str) -> str:
        """The last crate that a table's cell names in plain words before a span, if it names one."""
        cell = re.sub(r"`[^`]*`", " ", before).rpartition("|")[2] if before.startswith("|") else ""
        return next((word for word in reversed(re.findall(r"\w+", cell)) if word in self.tree.crates), "")

    def span(self, span: str, before: str, behind: str) -> None:
        of_module = span.startswith(("proofs.", "specs."))
        in_front = CRATE_BEFORE_A_MODULE if of_module else CRATE_BEFORE
        said = CRATE_BEHIND.match(behind) or in_front.search(before)
        crate = (said[1] or said[2]) if said else ""
        words = span.split(" ")
        if words[0] == "rt":
            return
        if len(words) == 1:
            self.name(span, crate if crate in self.tree.crates else "")
            return
        for word in words:
            if word.startswith("--") or is_path(word) or is_compound(word):
                self.name(word.strip("(),;"))

    def name(self, name: str, crate: str = "") -> None:
        """Looks a name up, if it is one."""
        if HEXADECIMAL.fullmatch(name):
            return
        if re.fullmatch(r"--[a-z][a-z-]*", name):
            is_known = name in self.tree.options or name in ALLOWED
            self.note(is_known, f"no script and no code has the option {name}")
        elif re.fullmatch(r"[\w-]+\.edit", name):
            self.note(self.tree.has_edit(name), f"no crate has the edit {name}")
        elif is_path(name):
            self.path(name, crate)
        elif A_MEMBER.fullmatch(name):
            self.member(name, crate)
        elif A_NAME.fullmatch(name):
            word = name.removesuffix("()")
            self.note(self.tree.has_word(word, crate), f"nothing in {crate or 'the tree'} is named {word}")

    def path(self, name: str, crate: str) -> None:
        is_there = name in ALLOWED or self.tree.has_path(name, self.page, self.last)
        is_there = is_there or bool(crate) and self.tree.has_path(name, f"crates/{crate}/README.md")
        self.note(is_there, f"{name} is no file or folder")
        named = re.match(r"crates/(\w+)", name)
        if named and named[1] in self.tree.crates:
            self.last = named[1]

    def member(self, name: str, crate: str) -> None:
        *owners, member = re.split(r"::|\.", name.removesuffix("()"))
        if owners[-1] in PARTS or "." in name and owners[0] == "Rattle":
            self.module([*owners, member], name, crate)
            return
        where = f"{crate} has no" if crate else "no crate has"
        self.note(self.tree.has_member(owners[-1], member, crate), f"{where} {name}")

    def module(self, parts: list[str], name: str, crate: str) -> None:
        """A module of definitions or lemmas: of this page's crate, or by its full name.

        One of the toolchain's library isn't looked up.
        """
        if parts[0] == "Rattle":
            folder, parts = f"crates/{parts[1]}", parts[2:]
        elif crate:
            folder = f"crates/{crate}"
        else:
            folder = os.path.dirname(self.page) if self.page.startswith("crates/") else "crates/*"
        self.note(folder == "crates/std" or found(f"{folder}/{parts[0]}/{parts[1]}.antt"), f"{name} is no module")

    def links(self, text: str) -> None:
        for target in re.findall(r"\]\(([^)\s]+)\)", text):
            if re.match(r"[a-z]+:", target):
                continue
            path, _, heading = target.partition("#")
            path = os.path.normpath(os.path.join(os.path.dirname(self.page), path)) if path else self.page
            is_there = os.path.exists(os.path.join(HOME, path))
            self.note(is_there, f"the link to {target} leads nowhere")
            if heading and path.endswith(".md") and is_there:
                heads = re.findall(r"(?m)^#+ (.*)$", text_of(path))
                slugs = {re.sub(r"[^\w -]", "", head.lower()).replace(" ", "-") for head in heads}
                self.note(heading in slugs, f"{path} has no heading for #{heading}")
