"""A repository with the launcher, a toolchain and a program, in which `tests/program/launcher` tries what users do.

`stand_ins/rt` stands in for the toolchain, and `stand_ins/program` for the program: nothing is proved or built.
"""
import atexit
import functools
import os
import shutil
import subprocess
import sys
import tempfile
import threading
from collections.abc import Mapping
from typing import NamedTuple, Optional

from checks import Tally
from issuer_host.facts.paths import HOME

STAND_INS = os.path.join(HOME, "tests/stand_ins")
CRATES = """\
# NAME: DEP DEP ..
low may_wait=2: arrayvec
other: low
top_half: low
issuer_main may_wait=1: top_half low   # the program
"""
NAMES = ("low", "other", "top_half", "issuer_main")
SOURCES = ("src/lib.rt", "specs/Lib.antt", "proofs/deep/Answers.antt", "must-fail/one.edit", "README.md")
# What the launcher asks the toolchain besides.
ASKED = ("['version']", "['help']")
# In the environment these would change what is tried.
NOT_PASSED_ON = ("ISSUER_NEVER_BUILD", "RT_JOBS", "KIT", "TRY", "CI", "TEST")
SECONDS = 300
# (checks run side by side)
COMPILING = threading.Lock()


class Ran(NamedTuple):
    """How a call ended: its status, output and error output, and what the launcher called of the toolchain."""

    status: int
    out: bytes
    said: str
    called: list[str]


def copy_file(path: str, to: str) -> None:
    """Copies what is run then, by a process of its own.

    A process that another thread starts meanwhile would hold the copy open for writing, so that it can't be run.
    """
    subprocess.run(["cp", path, to], check=True)


@functools.cache
def compiled_package() -> str:
    """A copy of the package with its modules compiled: some hundred calls of the launcher needn't do that again."""
    folder = tempfile.mkdtemp(prefix="launcher-package-")
    atexit.register(shutil.rmtree, folder, ignore_errors=True)
    package = f"{folder}/issuer_host"
    shutil.copytree(f"{HOME}/issuer_host", package, ignore=shutil.ignore_patterns("__pycache__"))
    subprocess.run([sys.executable, "-m", "compileall", "-q", package], check=True)
    return package


def copy_launcher(to: str) -> None:
    copy_file(f"{HOME}/issuer", f"{to}/issuer")
    with COMPILING:
        package = compiled_package()
    shutil.copytree(package, f"{to}/issuer_host")
    shutil.copyfile(f"{HOME}/VERSION", f"{to}/VERSION")


class Trial:
    """A repository, a toolchain and a folder from which the launcher is called, until the end of its `with`."""

    def __init__(self, tally: Tally) -> None:
        self.tally = tally
        self.room = tempfile.mkdtemp(prefix="launcher-trial-")
        self.home = f"{self.room}/home"
        self.kit = f"{self.room}/kit"
        self.here = f"{self.room}/here"
        self.temporary = f"{self.room}/temporary"
        for folder in (self.home, self.kit, self.here, self.temporary):
            os.mkdir(folder)
        self.write("home/crates.txt", CRATES)
        self.write("home/HANDLES", "Handles allowed: none.\n")
        for name in NAMES:
            self.write_crate(name)
        self.write("home/crates/issuer_main/data/config", "0\n")
        self.write("home/crates/issuer_main/args", "serve\n")
        copy_launcher(self.home)
        for name in ("rt", "program"):
            copy_file(f"{STAND_INS}/{name}", f"{self.kit}/{name}")
        self.write("here/config", "0\nfresh 0 0\n")
        self.write("here/requests", "S 1\n")

    def __enter__(self) -> "Trial":
        return self

    def __exit__(self, *fault: object) -> None:
        shutil.rmtree(self.room, ignore_errors=True)

    def write_crate(self, name: str) -> None:
        for path in SOURCES:
            self.write(f"home/crates/{name}/{path}", f"{name} {path}\n")

    def write(self, path: str, text: str) -> None:
        path = f"{self.room}/{path}"
        os.makedirs(os.path.dirname(path), exist_ok=True)
        with open(path, "w", encoding="utf-8") as to:
            to.write(text)

    def read(self, path: str) -> str:
        """Returns the text of a file; nothing if it doesn't exist."""
        try:
            with open(f"{self.room}/{path}", encoding="utf-8") as text:
                return text.read()
        except FileNotFoundError:
            return ""

    def change(self, path: str, old: str, new: str) -> None:
        """Changes a text of the launcher, which has to be there."""
        text = self.read(f"home/{path}")
        if text.count(old) != 1:
            raise ValueError(f"{path} doesn't have {old!r} once")
        self.write(f"home/{path}", text.replace(old, new))

    def environment(self, has_rt: bool = True, **more: str) -> dict[str, str]:
        folders = [*([self.kit] if has_rt else []), os.path.dirname(sys.executable), "/usr/bin", "/bin"]
        kept = {name: value for name, value in os.environ.items() if name not in NOT_PASSED_ON}
        return kept | {"PATH": ":".join(folders), "TMPDIR": self.temporary} | more

    def run(
        self,
        *words: str,
        has_rt: bool = True,
        given: bytes = b"",
        stdout: Optional[int] = subprocess.PIPE,
        settings: Optional[Mapping[str, str]] = None,
        **more: str,
    ) -> Ran:
        """Calls the launcher. Settings go to the environment, where they say what the toolchain answers."""
        self.write("kit/calls", "")
        more |= settings or {}
        self.tally.note_run(["issuer", *words], " ".join(f"{name}={value}" for name, value in more.items()))
        ran = subprocess.run(
            [f"{self.home}/issuer", *words],
            cwd=self.here,
            env=self.environment(has_rt, **more),
            input=given,
            stdout=stdout,
            stderr=subprocess.PIPE,
            timeout=SECONDS,
            check=False,
        )
        called = [call for call in self.read("kit/calls").splitlines() if call not in ASKED]
        return Ran(ran.returncode, ran.stdout or b"", ran.stderr.decode(), called)

    def serve(
        self,
        journal: str = "journal",
        requests: str = "requests",
        has_rt: bool = True,
        stdout: Optional[int] = subprocess.PIPE,
        settings: Optional[Mapping[str, str]] = None,
    ) -> Ran:
        words = ("serve", "--config", "config", "--requests", requests, "--journal", journal)
        return self.run(*words, has_rt=has_rt, stdout=stdout, settings=settings)

    def proved(self) -> "Trial":
        """Proves the program, as far as the stand-in does."""
        ran = self.run("prove")
        if ran.status:
            raise ValueError(f"nothing is proved: {ran}")
        return self

    def has_no_temporary_file(self) -> None:
        self.tally.expect(os.listdir(self.temporary), [], "temporary files that are left")

    def on_a_terminal(self, *words: str) -> Ran:
        """Calls the launcher with a terminal for its error output."""
        ours, theirs = os.openpty()
        self.tally.note_run(["issuer", *words], "on a terminal")
        command = [f"{self.home}/issuer", *words]
        how = self.environment()
        with subprocess.Popen(command, cwd=self.here, env=how, stdout=subprocess.PIPE, stderr=theirs) as running:
            os.close(theirs)
            assert running.stdout is not None
            out = running.stdout.read()
            said = b""
            try:
                while piece := os.read(ours, 4096):
                    said += piece
            except OSError:
                # (what a terminal says that nobody has open any more)
                pass
        os.close(ours)
        return Ran(running.returncode, out, said.decode().replace("\r\n", "\n"), [])
