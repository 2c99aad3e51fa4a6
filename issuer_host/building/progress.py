"""Which crate a run of `rt ci` has proved, how many of how many, and how long the rest takes."""
import os
import re
import select
import subprocess
import time
from collections.abc import Mapping
from typing import IO

from issuer_host.building.estimate import Estimate, lanes_of
from issuer_host.launcher.messages import minutes, tell
from issuer_host.launcher.sources import Crate

PASSED = re.compile(r"rt: (?P<name>\w+) (?P<how>proved|is kept: .*)")
FAILED = re.compile(r"rt: (?P<name>\w+) NOT PROVED.*")
NOTED = re.compile(r"rt: (note: )?the disk |rt: \w+: another run ")
# How often the processes are looked at, and how long nothing is told at most, in seconds.
LOOK_SECONDS = 1.0
TELL_SECONDS = 60.0
PIECE = 1 << 16
# Fields of /proc/PID/stat after the process' name: its parent, its processor time and that of its children, its start.
PARENT, TIMES, START = 1, slice(11, 15), 19

# A process by its number and start, and the crate that it proves.
Check = tuple[str, str, str]


def checks_of(parent: int) -> dict[Check, float]:
    """Returns the processor seconds of each check that a process has started and that runs."""
    found = {}
    for process in filter(str.isdigit, os.listdir("/proc")):
        try:
            with open(f"/proc/{process}/stat", encoding="utf-8", errors="replace") as text:
                fields = text.read().rpartition(")")[2].split()
            if int(fields[PARENT]) != parent:
                continue
            with open(f"/proc/{process}/cmdline", "rb") as data:
                words = data.read().decode(errors="replace").split("\0")
            name = words[words.index("--crate-name") + 1]
        except (OSError, ValueError, IndexError):
            continue
        found[process, fields[START], name] = sum(map(int, fields[TIMES])) / os.sysconf("SC_CLK_TCK")
    return found


class Progress:
    """What a run of `rt ci` has proved so far."""

    def __init__(self, crates: Mapping[str, Crate]) -> None:
        lanes = lanes_of()
        self.crates = crates
        self.estimate = Estimate(crates, lanes)
        self.proved: list[str] = []
        self.spent: dict[Check, float] = {}
        self.told_at = time.monotonic()
        processors = f"{lanes.number} processor{'s' * (lanes.number > 1)}"
        tell(
            f"proving {len(crates)} crates on {processors}: about {self.left()} where none is proved yet;"
            " .build/prove.log has all that `rt ci` says"
        )

    def left(self) -> str:
        return minutes(self.estimate.left())

    def follow(self, run: "subprocess.Popen[bytes]", log: IO[bytes]) -> str:
        """Tells of each crate as the run proves it, and of what takes long. Returns the run's last line."""
        assert run.stdout is not None
        source, last, unread = run.stdout.fileno(), "", b""
        while True:
            if select.select([source], [], [], LOOK_SECONDS)[0]:
                piece = os.read(source, PIECE)
                log.write(piece)
                log.flush()
                *lines, unread = (unread + piece).split(b"\n")
                if not piece and unread:
                    lines = [unread]
                for line in lines:
                    last = line.decode(errors="replace")
                    self.take(last)
                if not piece:
                    return last
            self.look(run.pid)

    def look(self, gate: int) -> None:
        """Looks at the proofs that the gate runs now, and tells of them if nothing was told for long."""
        now = checks_of(gate)
        self.spent |= now
        names = sorted({name for _, _, name in now})
        self.estimate.runs(names)
        if time.monotonic() - self.told_at < TELL_SECONDS:
            return
        being = f", and {', '.join(names)} {'is' if len(names) == 1 else 'are'} being proved" if names else ""
        late = [name for name in self.estimate.late() if name in names]
        longer = f"; {', '.join(late)} {'takes' if len(late) == 1 else 'take'} longer than expected" if late else ""
        self.tell(
            f"{len(self.proved)} of {len(self.crates)} crates are proved{being}{longer}; about {self.left()} left"
        )

    def take(self, line: str) -> None:
        """Tells what a line of the gate says of a crate."""
        found = PASSED.fullmatch(line)
        if found and found["name"] in self.crates and found["name"] not in self.proved:
            self.passed(found["name"], found["how"] != "proved")
        elif FAILED.fullmatch(line) or NOTED.match(line):
            self.tell(line.removeprefix("rt: "))

    def passed(self, name: str, is_kept: bool) -> None:
        self.proved.append(name)
        self.estimate.passed(name, is_kept)
        is_last = len(self.proved) == len(self.crates)
        left = "its stored run is next" if is_last else f"about {self.left()} left"
        how = "was proved by an earlier run" if is_kept else "is proved"
        self.tell(f"{name} {how}, {len(self.proved)} of {len(self.crates)}; {left}")

    def tell(self, text: str) -> None:
        tell(text)
        self.told_at = time.monotonic()

    def seconds(self) -> dict[str, float]:
        """Returns the processor seconds of what was proved here."""
        found: dict[str, float] = {}
        for (_, _, name), spent in self.spent.items():
            if name in self.proved:
                found[name] = found.get(name, 0.0) + spent
        return found
