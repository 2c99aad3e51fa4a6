"""`./issuer test`: the checks of pages, the tests of crates and the examples, by builds without proofs."""
import os
import re
import shutil
import signal
import subprocess
import sys
import tempfile
import time
from collections.abc import Iterable, Iterator
from types import FrameType
from typing import NamedTuple, NoReturn, Optional

from issuer_host.building.checks import WITHOUT_PROGRAM
from issuer_host.building.examples import EXAMPLES, Example, examples
from issuer_host.building.lanes import Done, Task, lanes_for, side_by_side
from issuer_host.facts.journals import journals_of
from issuer_host.facts.paths import HOME
from issuer_host.launcher.messages import minutes, stop, tell
from issuer_host.launcher.program_run import SIGNALS
from issuer_host.launcher.sources import TOP, rows_of
from issuer_host.launcher.toolchain import toolchain

ORACLE = os.path.join(HOME, "tests/oracle")
# How long a function of tests, or an example, may take: to end what hangs, also on a machine that does other work.
SECONDS = "600"
# What a build without proofs takes of memory, by and large.
BUILD_BYTES = 2 << 30
EXAMPLES_TASK = "examples"
# The name of the journals that an example begins. Those that a later one goes on with have the example's own name.
BEGUN = "begun"
TESTS_OF = re.compile(r"\w+_tests")
COUNTS = re.compile(r"(\d+) passed, (\d+) failed")
RESULT = re.compile(r"test result: .*?(?P<passed>\d+) passed; (?P<failed>\d+) failed;.*")
CASE = re.compile(r"case=\S+ run=.* proved=no")
EXPECTED = re.compile(r"case=\S+ run=ended status=0 .*output=expected proved=no")
# Of a task that gave no result, so many lines are passed on.
LAST_LINES = 20


class Counts(NamedTuple):
    """How many checks passed and failed."""

    passed: int
    failed: int


class Sum:
    """What passed and failed so far, and how to run alone what failed."""

    def __init__(self) -> None:
        self.passed = self.failed = 0
        self.alone: list[str] = []

    def add(self, name: str, counts: Counts, seconds: float, alone: str) -> None:
        self.passed += counts.passed
        self.failed += counts.failed
        if counts.failed:
            self.alone.append(f"{name}: {counts.failed} failed; alone: {alone}")
        print(f"{name}: {counts.passed} passed, {counts.failed} failed, in {minutes(seconds)}", flush=True)

    def end(self) -> int:
        for line in self.alone:
            print(line)
        print("without proofs: no contract was checked. .ci/run is the gate")
        print(f"{self.passed} passed, {self.failed} failed")
        return 1 if self.failed else 0


def test() -> int:
    """Runs all that can be tested without proofs. Returns 0 if all passed."""
    rt = toolchain()
    if not rt:
        stop("nothing can be tested: the toolchain's command `rt` isn't on the path")
    for number in SIGNALS:
        signal.signal(number, end)
    began, total = time.monotonic(), Sum()
    with tempfile.TemporaryDirectory(prefix="issuer-test-") as room:
        tasks = [*tasks_of_scripts(), *tasks_of_crates(rt), task_of_examples(rt, room)]
        for done in side_by_side(tasks, lanes_for(BUILD_BYTES)):
            add_done(total, done)
    tell(f"all of that took {minutes(time.monotonic() - began)}")
    return total.end()


def add_done(total: Sum, done: Done) -> None:
    """Adds what a task came to, by what it is."""
    name = done.task.name
    if name == EXAMPLES_TASK:
        total.add(name, counts_of_examples(done), done.seconds, "./issuer serve .., as examples/ has it")
    elif name in WITHOUT_PROGRAM:
        total.add(name, counts_of_script(done.text, done.status), done.seconds, name)
    else:
        total.add(name, counts_of_crate(done), done.seconds, alone(done.task))


def end(number: int, frame: Optional[FrameType]) -> NoReturn:
    """Ends by a signal: what runs is ended, and temporary files are removed."""
    sys.exit(128 + number)


# Pages, and what else needs no program


def tasks_of_scripts() -> Iterator[Task]:
    """Returns the scripts that need no program: they come first, since in seconds they tell of a page that is wrong."""
    for script in WITHOUT_PROGRAM:
        words = script.split()
        if os.path.isfile(os.path.join(HOME, words[0])):
            yield Task(script, words, HOME)


def counts_of_script(text: str, status: int) -> Counts:
    """Returns the counts of a script's last line. What it says of failures, and of what it left out, is passed on."""
    *lines, last = text.rstrip("\n").split("\n")
    found = COUNTS.fullmatch(last)
    counts = Counts(int(found[1]), int(found[2])) if found else Counts(0, 0)
    if not found or bool(status) != bool(counts.failed):
        pass_on(text.splitlines()[-LAST_LINES:])
        return Counts(counts.passed, counts.failed + 1)
    pass_on(lines[-LAST_LINES:] if counts.failed else [line for line in lines if line.startswith("left out: ")])
    return counts


def pass_on(lines: Iterable[str]) -> None:
    for line in lines:
        print(f"  {line}")


# Tests of crates


def tasks_of_crates(rt: str) -> Iterator[Task]:
    """Returns the tests of each crate of tests, those first that have most sources below them."""
    crates = [name for name in rows_of(HOME) if TESTS_OF.fullmatch(name)]
    for name in sorted(crates, key=size_of, reverse=True):
        yield Task(name, [rt, "try", "--test", "--seconds", SECONDS], f"{HOME}/crates/{name}")


def size_of(crate: str) -> int:
    """Returns how many bytes of sources a crate of tests has: the longer it is, the earlier it begins."""
    folder = f"{HOME}/crates/{crate}/src"
    return sum(os.path.getsize(f"{folder}/{name}") for name in os.listdir(folder) if name.endswith(".rt"))


def alone(task: Task) -> str:
    """Says how to run a crate's tests alone."""
    return f"cd {os.path.relpath(task.folder, HOME)} && rt {' '.join(task.command[1:])}"


def counts_of_crate(done: Done) -> Counts:
    """Returns the counts of a crate's tests. What failed is passed on."""
    lines = done.text.splitlines()
    found = next((result for result in map(RESULT.fullmatch, lines) if result), None)
    if not found:
        print(f"{done.task.name}: no test was run")
        pass_on(lines[-LAST_LINES:])
        return Counts(0, 1)
    counts = Counts(int(found["passed"]), int(found["failed"]))
    if counts.failed or done.status:
        pass_on(line for line in lines if not line.endswith(" ... ok"))
    if done.status and not counts.failed:
        return Counts(counts.passed, 1)
    return counts


# Examples


def task_of_examples(rt: str, room: str) -> Task:
    """Prepares a build of the program that runs each example in a folder of its own, as a case of `rt try --cases`."""
    cases, data = f"{room}/cases", f"{room}/data"
    os.mkdir(cases)
    os.mkdir(data)
    given = {name: os.path.join(EXAMPLES, name) for name in sorted(os.listdir(EXAMPLES))}
    begun: set[str] = set()
    for example in examples():
        is_first = example.journal not in begun
        journal = f"{BEGUN}-{example.journal}" if is_first else example.journal
        write_case(cases, example, journal)
        if example.journal and is_first:
            begun.add(example.journal)
            given |= journals_after(example, data)
    options = [word for name, path in given.items() for word in ("--data", f"{name}={path}")]
    command = [rt, "try", "--seconds", SECONDS, "--cases", cases, *options]
    return Task(EXAMPLES_TASK, command, f"{HOME}/crates/{TOP}")


def write_case(cases: str, example: Example, journal: str) -> None:
    """Writes a case: nothing on its standard input, its words, and what it has to write."""
    path = f"{cases}/{example.answers}"
    with open(path, "w", encoding="utf-8"):
        pass
    with open(f"{path}.args", "w", encoding="utf-8") as words:
        words.writelines(f"{word}\n" for word in example.all_words(journal))
    shutil.copyfile(os.path.join(EXAMPLES, example.answers), f"{path}.stdout")


def journals_after(example: Example, folder: str) -> dict[str, str]:
    """Returns the journals that an example leaves, by the independent program. Later examples go on with them."""
    name = os.path.join(folder, example.journal)
    command = [sys.executable, ORACLE, *example.all_words(name)]
    ran = subprocess.run(command, cwd=EXAMPLES, capture_output=True, text=True, check=False)
    if ran.returncode:
        stop(f"tests/oracle ended with {ran.returncode} over {example.answers}: {ran.stderr.strip()}")
    return {os.path.basename(path): path for path in journals_of(name)}


def counts_of_examples(done: Done) -> Counts:
    """Returns how many examples came out as expected. What failed is passed on."""
    passed, said = 0, list[str]()
    for line in done.text.splitlines():
        if EXPECTED.fullmatch(line):
            passed += 1
            said = []
        elif CASE.fullmatch(line):
            pass_on([*said, line])
            said = []
        else:
            said.append(line)
    every = len(examples())
    if passed < every and not any(map(CASE.fullmatch, done.text.splitlines())):
        pass_on(said[-LAST_LINES:])
    return Counts(passed, every - passed)
