"""Runs the toolchain's own gate, and remembers in the run what it asks for again and again.

usage: gate.py RT ci ..     RT is the path of the toolchain's command

For each proof `rt ci` asks which crates lie below one, and for a sum of all the files that one is made of. Some
toolchains answer both along every path of crates.txt. For the crate at the top that is millions of files, read before
its proof and again after it. Neither answer changes in a run, unless a file does. So a crate remembers its own.

Nothing else of the toolchain is changed: it decides what is proved, by what, and in which order. Where it has no such
calls, its command is run as it is.

A toolchain takes the sum before and after a proof to find files that changed meanwhile. Remembering it drops that. So
whoever runs this compares the sources before the run and after it: `issuer_host.building.proof_run` does.
"""
import ast
import functools
import importlib.machinery
import importlib.util
import os
import sys
from collections.abc import Callable, Sequence
from types import ModuleType
from typing import Any, NamedTuple, Optional

# The calls that are remembered, of the class of a crate. Each calls itself for the crates below.
CLASS = "Crate"
CALLS = ("below", "stamp")
LIBRARY = "rtlib"


class Toolchain(NamedTuple):
    """The toolchain's command as a module that is loaded and not run, and the class of its crates."""

    command: ModuleType
    crate: type[Any]


def main_guard(tree: ast.Module) -> bool:
    """Whether a module has a function `main`, and runs it only as a command."""
    has_main = any(isinstance(item, ast.FunctionDef) and item.name == "main" for item in tree.body)
    last = tree.body[-1] if tree.body else None
    return has_main and isinstance(last, ast.If) and ast.unparse(last.test) == "__name__ == '__main__'"


def call_of(function: ast.stmt) -> str:
    """Returns which of the calls this is, if any: undecorated, of a crate alone, asking those below by its own name."""
    if not isinstance(function, ast.FunctionDef) or function.name not in CALLS:
        return ""
    if function.decorator_list or [argument.arg for argument in function.args.args] != ["self"]:
        return ""
    asked = [node.attr for node in ast.walk(function) if isinstance(node, ast.Attribute)]
    return function.name if function.name in asked else ""


def has_calls(tree: ast.Module) -> bool:
    """Whether a module has the class of crates with both calls."""
    for item in tree.body:
        if isinstance(item, ast.ClassDef) and item.name == CLASS:
            return sorted(filter(None, map(call_of, item.body))) == sorted(CALLS)
    return False


def parsed(path: str) -> ast.Module:
    """Returns a file's text as Python; an empty module if it is none, or can't be read."""
    try:
        with open(path, "rb") as text:
            return ast.parse(text.read())
    except (OSError, SyntaxError, ValueError):
        return ast.Module(body=[], type_ignores=[])


def load(path: str) -> Optional[Toolchain]:
    """Loads the toolchain's command, if it is one whose calls are remembered here. Others aren't even loaded."""
    library = os.path.join(os.path.dirname(path), f"{LIBRARY}.py")
    if not main_guard(parsed(path)) or not has_calls(parsed(library)):
        return None
    loader = importlib.machinery.SourceFileLoader("rt", path)
    spec = importlib.util.spec_from_loader("rt", loader)
    if spec is None:
        return None
    command = importlib.util.module_from_spec(spec)
    loader.exec_module(command)
    crate = getattr(getattr(command, LIBRARY, None), CLASS, None)
    if not isinstance(crate, type) or not all(call in vars(crate) for call in CALLS):
        return None
    return Toolchain(command, crate)


def remembering(call: Callable[[Any], Any], copy: Callable[[Any], Any]) -> Callable[[Any], Any]:
    """Returns a call that asks once for each crate, and again if the crates that it names are others by then."""
    name = f"remembered {call.__name__}"

    @functools.wraps(call)
    def remembered(self: Any) -> Any:
        kept = vars(self).get(name)
        if kept is None or kept[0] != self.deps:
            kept = list(self.deps), call(self)
            vars(self)[name] = kept
        return copy(kept[1])

    return remembered


def remember(crate: type[Any]) -> None:
    """Has crates remember what lies below them, and the sums of their files."""
    crate.below = remembering(crate.below, list)
    crate.stamp = remembering(crate.stamp, str)


def main(words: Sequence[str]) -> int:
    rt, *given = words
    found = load(os.path.realpath(rt))
    if found is None:
        os.execv(rt, [rt, *given])
    remember(found.crate)
    status = found.command.main(given)
    return int(status or 0)


if __name__ == "__main__":
    sys.dont_write_bytecode = True
    sys.exit(main(sys.argv[1:]))
