"""Checks by name: what each script of this folder has, lists, and runs.

A script hands its checks to `run_script`, in their order. Its words are then:

    SCRIPT              runs all of its checks
    SCRIPT NAME ..      runs those of these names, in which `*` stands for any text
    SCRIPT --list       prints the names, and what each shows; it runs none

Checks that mostly wait run side by side, if their script says so. Checks that read files alone need no built program:
a script that has some runs them without one, by --without-program no others, and by --with-program the others.

A check compares as often as it likes, and each comparison counts. One that fails says what was run, what was expected
and what came. A check that ends early has failed once more, and so has one that compared nothing. Behind the failures
stands how to run each check alone that failed. The last line is `N passed, M failed`.
"""
import argparse
import fnmatch
import json
import os
import re
import shlex
import signal
import subprocess
import sys
import traceback
from collections.abc import Callable, Iterable, Sequence
from functools import partial
from typing import Any, NamedTuple, NoReturn

# Every script here imports this module or `runs` first: so they find the package `issuer_host` too.
sys.path.insert(0, os.path.dirname(os.path.dirname(os.path.realpath(__file__))))
from check_lanes import Work, run_in_lanes
from issuer_host.facts.paths import HOME, built_program

# Of a value that was expected or came, and of what was run, so many characters are printed.
SHOWN = 600
# Of one check so many failures are printed.
MOST_PRINTED = 10
ALONE = "alone: "
BUILD_FIRST = "build the program first: ./issuer prove, or rt ci"


class Tally:
    """Counts what the comparisons of one check after another came to, and prints those that failed."""

    def __init__(self, program: str = "", script: str = "") -> None:
        self.program = program
        self.script = script
        self.passed = 0
        self.failed = 0
        # Those that failed, by name, and how often.
        self.failures: dict[str, int] = {}
        self.name = ""
        self.ran = ""

    def begin(self, name: str) -> None:
        """A check of this name begins."""
        self.name = name
        self.ran = ""

    def expect(self, came: object, expected: object, what: str) -> bool:
        """Counts whether what came is what was expected."""
        if came == expected:
            self.passed += 1
            return True
        self.fail(what, f"expected: {brief(expected)}", f"came:     {brief(came)}")
        return False

    def holds(self, fact: object, what: str) -> bool:
        """Counts whether a fact holds. The words say what came if it doesn't."""
        if fact:
            self.passed += 1
            return True
        self.fail(what)
        return False

    def add(self, passed: int, failed: int) -> None:
        """Adds what the check came to in a process of its own, which printed what failed."""
        self.passed += passed
        self.failed += failed
        if failed:
            self.failures[self.name] = failed

    def fail(self, what: str, *more: str) -> None:
        self.failed += 1
        self.failures[self.name] = self.failures.get(self.name, 0) + 1
        printed = self.failures[self.name]
        if printed > MOST_PRINTED:
            if printed == MOST_PRINTED + 1:
                print(f"wrong: {self.name}: .. and more", flush=True)
            return
        print(f"wrong: {self.name}: {what}" if self.name else f"wrong: {what}")
        ran = [f"ran:      {self.ran}"] if self.ran else []
        for line in (*ran, *more):
            print(f"    {line}")
        sys.stdout.flush()

    def note_run(self, words: Iterable[str], folder: str = "") -> None:
        """A failure that follows says that this was run."""
        self.ran = brief_text(shlex.join(words)) + (f" (in {folder})" if folder else "")

    def run(
        self, folder: str, words: Sequence[str], program: str = "", **more: Any
    ) -> "subprocess.CompletedProcess[str]":
        """Runs the program, or another one, in a folder."""
        self.note_run(["issuer", *words] if not program else [program, *words], folder)
        command = [program or self.program, *words]
        return subprocess.run(command, cwd=folder, capture_output=True, text=True, check=False, **more)

    def run_bytes(self, folder: str, words: Sequence[str], **more: Any) -> "subprocess.CompletedProcess[bytes]":
        """Runs the program, whose output is read as bytes."""
        self.note_run(["issuer", *words], folder)
        return subprocess.run([self.program, *words], cwd=folder, capture_output=True, check=False, **more)

    def end(self) -> NoReturn:
        for name in self.failures:
            if name:
                print(f"{ALONE}{self.script} {shlex.quote(name)}")
        print(f"{self.passed} passed, {self.failed} failed")
        sys.exit(self.failed > 0)


class Check(NamedTuple):
    """A check by its name, and what it shows."""

    name: str
    does: str
    body: Callable[[Tally], object]
    # Whether it may find nothing to compare, as in a page without figures.
    may_be_empty: bool = False
    # Whether it runs the built program.
    needs_program: bool = True
    # Whether it looks at what others left: where checks run side by side it begins once all before it have ended.
    is_last: bool = False


def check_of(body: Callable[[Tally], object]) -> Check:
    """Returns the check that a function is: its name, and the first line of its docstring."""
    return Check(body.__name__, (body.__doc__ or "").strip().partition("\n")[0], body)


def name_of(text: str) -> str:
    """Returns a text as the name of a check: letters, digits, dots and strokes, and `_` for all else."""
    return re.sub(r"[^\w./-]+", "_", text).strip("_")


def brief(value: object) -> str:
    return brief_text(repr(value))


def brief_text(text: str) -> str:
    return text if len(text) <= SHOWN else f"{text[: SHOWN * 2 // 3]} .. {text[-SHOWN // 3 :]}"


def words_of_script(usage: str, **more: object) -> argparse.Namespace:
    """Returns the words of a script: --list, the names of checks, and other options by their defaults."""
    words = argparse.ArgumentParser(usage=usage)
    words.add_argument("--list", action="store_true")
    words.add_argument("names", nargs="*", metavar="NAME")
    for name, default in more.items():
        if isinstance(default, bool):
            words.add_argument(f"--{name}", action="store_true")
        else:
            words.add_argument(f"--{name}", default=default, type=type(default))
    return words.parse_args()


def options_of(usage: str, has_others: bool = False, **more: object) -> argparse.Namespace:
    """Returns the words of a script that runs the built program: --program, --short, and others.

    A script that has checks without it too runs those where nothing is built, by --without-program no others, and by
    --with-program the others.
    """
    if has_others:
        more = {**more, "without-program": False, "with-program": False}
    options = words_of_script(usage, program=built_program(), short=False, **more)
    options.program = os.path.abspath(options.program)
    if not options.list and not has_others and not is_built(options.program):
        sys.exit(BUILD_FIRST)
    return options


def is_built(program: str) -> bool:
    return os.access(program, os.X_OK)


def script_name() -> str:
    """Returns the path of the script that runs, from the top of the tree."""
    return os.path.relpath(os.path.realpath(sys.argv[0]), HOME)


def chosen_of(checks: Sequence[Check], names: Sequence[str]) -> list[Check]:
    """Returns the checks that are named. A name that none has ends the script."""
    for name in names:
        if not any(fnmatch.fnmatchcase(check.name, name) for check in checks):
            print(f"no check of {script_name()} is named {name}; --list prints the names", file=sys.stderr)
            print("0 passed, 1 failed")
            sys.exit(2)
    return [check for check in checks if not names or any(fnmatch.fnmatchcase(check.name, name) for name in names)]


def run_check(tally: Tally, check: Check) -> None:
    """Runs a check. An end before its time is a failure."""
    tally.begin(check.name)
    before = tally.passed + tally.failed
    try:
        check.body(tally)
    except Exception:
        lines = traceback.format_exc().rstrip("\n").split("\n")
        tally.fail("the check ended early", *lines)
    if tally.passed + tally.failed == before and not check.may_be_empty:
        tally.fail("the check compared nothing")


def run_alone(tally: Tally, check: Check) -> str:
    """Runs a check in a process of its own. Returns how many of its comparisons passed and failed."""
    tally.passed = tally.failed = 0
    run_check(tally, check)
    return json.dumps([tally.passed, tally.failed])


def run_side_by_side(tally: Tally, checks: Sequence[Check], count: int) -> None:
    """Runs so many checks at a time. What they print comes in their order."""
    works = [Work(partial(run_alone, tally, check), check.is_last) for check in checks]
    for check, ended in zip(checks, run_in_lanes(works, count)):
        print(ended.text, end="", flush=True)
        tally.begin(check.name)
        if ended.returned is None:
            tally.fail(f"its process ended with {ended.status}")
        else:
            tally.add(*json.loads(ended.returned))


def with_program(options: argparse.Namespace, tally: Tally, checks: Sequence[Check]) -> list[Check]:
    """Returns the checks that can be run. One that needs the program, which isn't built, is a failure."""
    others = [check for check in checks if not check.needs_program]
    if getattr(options, "without_program", False):
        return others
    if getattr(options, "with_program", False):
        checks, others = [check for check in checks if check.needs_program], []
    if not hasattr(options, "without_program") or is_built(options.program):
        return list(checks)
    for check in checks:
        if check.needs_program:
            tally.begin(check.name)
            tally.fail(BUILD_FIRST)
    return others


def run_script(
    options: argparse.Namespace, checks: Iterable[Check], alone: str = "", side_by_side: int = 1
) -> NoReturn:
    """Lists the checks, or runs those that the words name, and ends the script.

    `alone` is how the script is called that runs a check alone, if its path doesn't do. So many checks run
    `side_by_side`, each in a process of its own.
    """
    every = list(checks)
    twice = {check.name for check in every if sum(other.name == check.name for other in every) > 1}
    if twice:
        sys.exit(f"two checks have one name: {' '.join(sorted(twice))}")
    if options.list:
        # (whoever reads the list may end before it does)
        signal.signal(signal.SIGPIPE, signal.SIG_DFL)
        for check in every:
            print(f"{check.name}: {check.does}" if check.does else check.name)
        sys.exit(0)
    tally = Tally(getattr(options, "program", ""), alone or script_name())
    chosen = with_program(options, tally, chosen_of(every, options.names))
    if side_by_side > 1 and len(chosen) > 1:
        run_side_by_side(tally, chosen, side_by_side)
    else:
        for check in chosen:
            run_check(tally, check)
    tally.end()
