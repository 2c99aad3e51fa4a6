"""The pages that are made of the tree: all definitions of the contract, the law clause by clause, and faults.

Nothing of them is committed. `tests/pages/make` writes them, and `./issuer docs` has it do so.
"""
import re
from collections.abc import Callable, Iterable, Iterator

from pages import faults
from pages.reached import CALL, DEVICES, DEVICES_CHAPTER, TOP, Contract, Root, contract, order_of
from sources.specs import Definition, Key, Module

MADE_BY = "`./issuer docs` made this page of the tree."
# What a clause says directly stands in these crates; what their words mean is on the page of definitions.
OF_CLAUSES = ("issuer_top", "desk_host", "one_caller", "shared_laws")


def modules_with(of_call: Contract, keys: set[Key]) -> Iterator[tuple[Module, list[Definition]]]:
    """The files that have some definitions, in reading order, each with these."""
    for at in order_of(of_call.specs.modules):
        module = of_call.specs.modules[at]
        items = [item for item in module.definitions if item.key in keys]
        if items:
            yield module, items


def definitions() -> str:
    """Every definition that the contract reaches, by the clause that reaches it first."""
    of_call = contract()
    lines = [
        *("# All definitions of the contract", "", MADE_BY, "", of_call.figures, ""),
        "A chapter for each clause, in the order of the contract, and one for the devices. In a chapter the lowest",
        "crate comes first, each file in the order of its crate's `specs/Lib.antt`. The words are its comment's.",
    ]
    for chapter, keys in of_call.reached.chapters.items():
        lines += ["", f"## {chapter}", "", f"{len(keys)} definitions, {of_call.reached.lines(keys)} lines."]
        crate = ""
        for module, items in modules_with(of_call, set(keys)):
            lines += ["", f"### {chapter}: {module.crate}"] if module.crate != crate else []
            crate = module.crate
            lines += ["", f"`{module.path}`: {module.head}", "", *map(entry, items)]
    return "\n".join([*lines, ""])


def entry(item: Definition) -> str:
    said = item.sentence()
    return f"- `{item.name}`{': ' + said if said else ''}"


def code(text: str) -> list[str]:
    return ["```text", text.strip("\n"), "```", ""]


def law() -> str:
    """Each clause of the call with its text, and the text of the definitions that say what it means first."""
    of_call = contract()
    lines = [
        *("# The law, clause by clause", "", MADE_BY, ""),
        f"The contract of `{CALL}` is in `{TOP}`,",
        f"that of its devices in {' and '.join(f'`{it}`' for it in DEVICES)}.",
        f"Below each clause is what it says first: its definitions of {', '.join(f'`{it}`' for it in OF_CLAUSES)},",
        "from the top down, as they stand in the files. What their words mean is on the page of all definitions.",
        "",
    ]
    for root in of_call.roots:
        if root.chapter != DEVICES_CHAPTER:
            lines += clause(of_call, root)
    return "\n".join(lines)


def clause(of_call: Contract, root: Root) -> list[str]:
    keys = {key for key in of_call.reached.chapters[root.chapter] if key[0] in OF_CLAUSES}
    text = re.sub(r"(?m)^\s*//.*$", "", root.text)
    lines = [f"## {root.chapter}", "", *code(f"ensures {root.chapter} {text.strip()}")]
    for module, items in reversed(list(modules_with(of_call, keys))):
        lines += [f"### {root.chapter}: {module.crate}, {module.name}", "", module.head, ""]
        for item in items:
            lines += [f"`{item.name}`: {item.sentence()}" if item.comment else f"`{item.name}`", ""]
            lines += code("\n".join(line[item.indent :] for line in item.lines))
    return lines


def faults_by_clause() -> str:
    """Each fault that hosts of this kind have had, with what rules it out here."""
    lines = ["# Faults, and what rules each out", "", MADE_BY, "", *faults_by_subject(), ""]
    for section in faults.sections():
        lines += [f"## {section.title}", ""]
        lines += [of_docs(section.note), ""] if section.note else []
        for fault in section.faults:
            lines += [f"- **{fault.title}.**", f"  - {of_docs(fault.clause)}"]
            lines += [f"  - {text}" for text in shown(fault)]
        lines += [""]
    return "\n".join(lines)


def faults_by_subject() -> Iterator[str]:
    """A table of how many faults, edits and tests each subject has."""
    yield from ("| subject | faults | edits named | tests named |", "|---|---|---|---|")
    for title, _, some in faults.sections():
        edits, tests = sum(len(it.edits) for it in some), sum(len(it.tests) for it in some)
        yield f"| {title} | {len(some)} | {edits} | {tests} |"


def of_docs(text: str) -> str:
    """A text of a page in docs/assurance, with its links as a page of another folder beside it has them."""
    return re.sub(r"\]\((?!\w+:|#|\.\./)", "](../assurance/", text)


def shown(fault: faults.Fault) -> Iterable[str]:
    """The edits and tests of a fault, in a line."""
    texts = []
    for name, aside in (("Edits", False), ("Edits kept aside", True)):
        some = [f"{it.crate} `{it.name}`" for it in fault.edits if it.is_aside is aside]
        texts += [f"{name}: {', '.join(some)}."] if some else []
    tests = [f"`{name}`{f' of {crate}' if crate else ''}" for name, crate in fault.tests]
    texts += [f"Tests: {', '.join(tests)}."] if tests else []
    return [" ".join(texts)] if texts else []


# The file of each page, and what makes it.
PAGES: dict[str, Callable[[], str]] = {
    "definitions.md": definitions,
    "law.md": law,
    "faults.md": faults_by_clause,
}
