"""The proof of the programs: one run of the toolchain's own gate over a copy of the crates that they stand on."""
import fcntl
import hashlib
import os
import re
import shutil
import signal
import subprocess
import sys
import tempfile
import time
from collections.abc import Iterable, Mapping, Sequence
from types import FrameType
from typing import NoReturn, Optional

from issuer_host.building.estimate import write_seconds
from issuer_host.building.progress import Progress
from issuer_host.facts.paths import BUILD, HOME, ProgramName, RECORD
from issuer_host.facts.version import version
from issuer_host.files.placement import put_in_place
from issuer_host.launcher.messages import complain, minutes, stop, tell
from issuer_host.launcher.program_run import SIGNALS, ending_with_launcher
from issuer_host.launcher.proved_program import sum_of_proof, why_unproved, write_json
from issuer_host.launcher.sources import Crate, PROOF_PARTS, crates_below, files_of, programs_of, sources_of
from issuer_host.launcher.toolchain import kit_of, toolchain

LOG = os.path.join(BUILD, "prove.log")
LOCK = os.path.join(BUILD, "lock")
GATE = os.path.join(os.path.dirname(os.path.realpath(__file__)), "gate.py")
# A crate's stored run, which the gate compares with.
RUN_PARTS = ("args", "data", "stdin", "stdout", "status")
ROOM = re.compile(r"issuer-prove-(?P<process>\d+)-")
# Of a run that failed, so many lines are passed on, and so much of each.
LAST_LINES = 12
LINE = 300


def prove(words: Sequence[str]) -> int:
    """Proves the programs and builds them. Returns 0 if those in .build are the proved ones of these sources."""
    rt = toolchain()
    if not rt:
        stop("the toolchain's command `rt` isn't on the path, so nothing can be proved")
    os.makedirs(BUILD, exist_ok=True)
    with open(LOCK, "w", encoding="utf-8") as lock:
        try:
            fcntl.flock(lock, fcntl.LOCK_EX | fcntl.LOCK_NB)
        except BlockingIOError:
            tell("another ./issuer prove runs here; waiting for it to end")
            fcntl.flock(lock, fcntl.LOCK_EX)
        if not words and not why_unproved():
            tell("the program is proved and built already, of these sources: .build/issuer")
            return 0
        sweep()
        with tempfile.TemporaryDirectory(prefix=f"issuer-prove-{os.getpid()}-") as room:
            return prove_in(room, rt, words)


def sweep() -> None:
    """Removes the folders of runs that were killed."""
    at = tempfile.gettempdir()
    for name in os.listdir(at):
        found = ROOM.match(name)
        if found and not os.path.exists(f"/proc/{found['process']}"):
            shutil.rmtree(f"{at}/{name}", ignore_errors=True)


def copy_sources(to: str, crates: Mapping[str, Crate]) -> None:
    """Copies these crates to a folder that `rt ci` takes for a repository."""
    # (`rt ci` looks for the top of a repository by it)
    os.makedirs(f"{to}/.git")
    with open(f"{to}/crates.txt", "w", encoding="utf-8") as text:
        text.writelines(f"{crate.line}\n" for crate in crates.values())
    if os.path.isfile(f"{HOME}/HANDLES"):
        shutil.copyfile(f"{HOME}/HANDLES", f"{to}/HANDLES")
    for name in crates:
        for path in files_of(HOME, name, (*PROOF_PARTS, *RUN_PARTS)):
            inside = f"{to}/{os.path.relpath(path, HOME)}"
            os.makedirs(os.path.dirname(inside), exist_ok=True)
            shutil.copyfile(path, inside, follow_symlinks=False)


def prove_in(room: str, rt: str, words: Sequence[str]) -> int:
    """Proves a copy of the sources in a folder. It installs the programs if the gate passed all crates of it."""
    began = time.monotonic()
    crates, is_kept = crates_below(HOME), keeps(rt)
    copy_sources(f"{room}/issuer", crates)
    copy = f"{room}/issuer"
    kit, sources = kit_of(rt), sources_of(copy)
    if not kit:
        stop(f"{rt} doesn't tell its version")
    end_by_signals(is_kept)
    progress = Progress(crates)
    run = start([rt, "ci", *(words if is_kept else ())], copy)
    with open(LOG, "wb") as log:
        try:
            last = progress.follow(run, log)
            status = run.wait()
        finally:
            # (rt ends all that it started where it ends)
            run.kill()
            run.wait()
    write_seconds(progress.seconds(), crates)
    made = {program: f"{copy}/crates/{program.top}/out/{program.top}" for program in programs_of(HOME)}
    if status or last != f"{len(crates)} passed, 0 failed" or not all(map(os.path.isfile, made.values())):
        stop_unproved(is_kept)
    # (the gate remembers sums of the sources, so it doesn't see a change while it runs)
    if sources_of(copy) != sources:
        stop("a source changed while it was proved; run ./issuer prove again")
    install(made, sources, kit)
    tell(
        f"proved and built after {minutes(time.monotonic() - began)}: ./issuer runs the proved program, .build/issuer,"
        " from now on"
    )
    return 0


def start(command: Sequence[str], folder: str) -> "subprocess.Popen[bytes]":
    """Starts the gate over a folder. It ends where the launcher does."""
    return subprocess.Popen(
        [sys.executable, "-IS", GATE, *command],
        cwd=folder,
        stdin=subprocess.DEVNULL,
        stdout=subprocess.PIPE,
        stderr=subprocess.STDOUT,
        bufsize=0,
        preexec_fn=ending_with_launcher(),
    )


def keeps(rt: str) -> bool:
    """Whether `rt ci` leaves what it proved to later runs. A toolchain that does so has --anew, by which it doesn't."""
    try:
        ran = subprocess.run([rt, "help"], stdin=subprocess.DEVNULL, capture_output=True, text=True, timeout=60)
    except (OSError, subprocess.SubprocessError):
        return False
    store = f"{os.path.dirname(os.path.dirname(os.path.realpath(rt)))}-kept"
    is_writable = os.access(store if os.path.isdir(store) else os.path.dirname(store), os.W_OK)
    return "--anew" in ran.stdout + ran.stderr and is_writable


def end_by_signals(is_kept: bool) -> None:
    """Has the launcher end by a signal with a word on what is kept."""

    def interrupted(number: int, frame: Optional[FrameType]) -> NoReturn:
        tell(f"stopped; {AFTER_A_STOP[is_kept]}")
        sys.exit(128 + number)

    for number in SIGNALS:
        signal.signal(number, interrupted)


AFTER_A_STOP = {
    True: "the crates that were proved are kept, and the next ./issuer prove goes on from there",
    False: "this toolchain keeps nothing of a run that ended early",
}


def stop_unproved(is_kept: bool) -> NoReturn:
    """Stops with the end of the log."""
    for line in last_lines(LOG):
        complain(f"  {line[:LINE]}")
    kept = ". What it proved is kept for the next run" if is_kept else ""
    stop(f"the program was not proved; .build/prove.log has all that `rt ci` said{kept}")


def last_lines(path: str) -> Iterable[str]:
    with open(path, encoding="utf-8", errors="replace") as text:
        return text.read().splitlines()[-LAST_LINES:]


def install(made: Mapping[ProgramName, str], sources: dict[str, str], kit: str) -> None:
    """Leaves the programs and the record of their proof."""
    programs: dict[ProgramName, bytes] = {}
    for program, path in made.items():
        with open(path, "rb") as file:
            programs[program] = file.read()
    sums = {program.member: hashlib.sha256(data).hexdigest() for program, data in programs.items()}
    record = {
        "sum": sum_of_proof(sources, kit),
        "kit": kit,
        "version": version(),
        **sums,
        "sources": sources,
        "at": time.strftime("%Y-%m-%dT%H:%M:%SZ", time.gmtime()),
    }
    for program, data in programs.items():
        put_in_place(program.path, data, 0o755)
    write_json(RECORD, record)
