"""What the launcher's words ask for."""
import os
import sys
from collections.abc import Callable, Sequence
from typing import Protocol

from issuer_host.configuration import command as configuration_check
from issuer_host.facts.memory import keep_from_others
from issuer_host.facts.paths import HOME
from issuer_host.facts.proof import read_record
from issuer_host.facts.statuses import Status
from issuer_host.facts.version import version
from issuer_host.launcher.first_answer import estimate
from issuer_host.launcher.hints import hint, new_journal
from issuer_host.launcher.messages import stop, tell
from issuer_host.launcher.pin_words import NoPin, filled
from issuer_host.launcher.program_run import open_descriptors
from issuer_host.launcher.proved_program import why_unproved
from issuer_host.launcher.proved_run import run_proved
from issuer_host.launcher.sources import TOP
from issuer_host.launcher.toolchain import kit_of, toolchain
from issuer_host.launcher.usage import usage

NEVER_BUILD = "ISSUER_NEVER_BUILD"
FORBIDDEN = f"--never-build, or {NEVER_BUILD} in the environment, forbids"
INTERRUPTED = 130


class Builder(Protocol):
    """Builds and proves these sources. An installed copy has none."""

    def run_unproved(self, words: Sequence[str]) -> int:
        """Builds the program without proofs, and returns the status of one run of it."""

    def prove(self, words: Sequence[str]) -> int:
        ...

    def test(self) -> int:
        ...

    def docs(self, words: Sequence[str]) -> int:
        ...


# Gives the builder. It is called where there are sources alone.
FindBuilder = Callable[[], Builder]


def line_of_version() -> str:
    """Returns the line of the product's version, with the toolchain that proved the program if one did."""
    if not why_unproved():
        return f"issuer {version()}, proved with {read_record().get('kit')}"
    rt = toolchain()
    kit = kit_of(rt) if rt else None
    return f"issuer {version()}, not proved here" + (f"; the toolchain is {kit}" if kit else "")


def answer(words: Sequence[str], builder: FindBuilder, is_output_open: bool) -> int:
    """Does what the words ask for, and returns the status."""
    never_builds = os.environ.get(NEVER_BUILD, "") not in ("", "0")
    while words[:1] == ["--never-build"]:
        never_builds = True
        words = words[1:]
    if not words or words in (["--help"], ["-h"], ["help"]):
        print(usage(), end="")
        return Status.OK
    if words == ["--version"]:
        print(line_of_version())
        return Status.OK
    if words in (["prove"], ["prove", "--anew"]):
        return prove(words, builder, never_builds)
    if words == ["test"]:
        return test(builder, never_builds)
    if words[:1] == ["docs"]:
        stop_without_sources("no pages can be made")
        return builder().docs(words[1:])
    if not is_output_open:
        tell("the output is closed, so nothing was run")
        return Status.OUTPUT
    if words[:1] == ["check"]:
        return configuration_check.main(words[1:])
    return run(words, builder, never_builds)


def run(words: Sequence[str], builder: FindBuilder, never_builds: bool) -> int:
    """Runs the proved program of these sources, or else a build without proofs."""
    try:
        words = filled(words)
    except NoPin as fault:
        tell(str(fault))
        return Status.WORDS
    wrong = hint(words) or new_journal(words)
    if wrong:
        tell(wrong)
    why = why_unproved()
    if not why:
        return run_proved(words)
    if never_builds:
        stop(f"{why}, and {FORBIDDEN} to build one. Run ./issuer prove where programs are built")
    stop_without_sources("no program can be built")
    tell(
        f"{why}: an UNPROVED build answers this run, {estimate()}."
        " ./issuer prove makes the proved program, once for all later runs"
    )
    return builder().run_unproved(words)


def prove(words: Sequence[str], builder: FindBuilder, never_builds: bool) -> int:
    if never_builds:
        stop(f"no program is built here: {FORBIDDEN} it")
    stop_without_sources("nothing can be proved")
    return builder().prove(words[1:])


def test(builder: FindBuilder, never_builds: bool) -> int:
    if never_builds:
        stop(f"nothing is tested here: {FORBIDDEN} to build a program")
    stop_without_sources("nothing can be tested")
    return builder().test()


def stop_without_sources(what: str) -> None:
    """Stops in an installed copy, which has the proved program alone."""
    if not os.path.isdir(f"{HOME}/crates/{TOP}"):
        stop(f"{what}: there are no sources here")


def main(words: Sequence[str], builder: FindBuilder) -> int:
    """Does what the words ask for. Returns the status, also of an interrupted run or an output that failed."""
    keep_from_others()
    try:
        status = answer(words, builder, open_descriptors())
        if sys.stdout:
            sys.stdout.flush()
        return status
    except KeyboardInterrupt:
        return INTERRUPTED
    except BrokenPipeError:
        os.dup2(os.open(os.devnull, os.O_WRONLY), 1)
        return Status.OUTPUT
    except OSError as error:
        tell(f"{error.filename or 'the launcher'}: {error.strerror}")
        return Status.NO_PROGRAM
