"""Commands that run side by side, as many as processors and memory allow."""
import os
import re
import signal
import subprocess
import tempfile
import time
from collections.abc import Iterator, Sequence
from typing import IO, NamedTuple

from issuer_host.launcher.messages import minutes, tell
from issuer_host.launcher.program_run import ending_with_launcher

# How often processes are looked at, and how long nothing is told at most, in seconds.
LOOK_SECONDS = 0.2
TELL_SECONDS = 60.0
MEMORY = re.compile(r"^MemAvailable:\s+(\d+) kB$", re.MULTILINE)


class Task(NamedTuple):
    """A command, and the folder that it is run in."""

    name: str
    command: list[str]
    folder: str


class Done(NamedTuple):
    """A task that has ended: its status, all that it wrote, and the seconds that it took."""

    task: Task
    status: int
    text: str
    seconds: float


class RunningTask(NamedTuple):
    task: Task
    process: "subprocess.Popen[bytes]"
    wrote: IO[bytes]
    began: float

    def done(self) -> Done:
        self.wrote.seek(0)
        text = self.wrote.read().decode(errors="replace")
        self.wrote.close()
        return Done(self.task, self.process.returncode, text, time.monotonic() - self.began)


def lanes_for(bytes_of_each: int) -> int:
    """Returns how many tasks may run at once: one a processor, as many as the free memory holds, and at least one."""
    with open("/proc/meminfo", encoding="ascii") as text:
        found = MEMORY.search(text.read())
    free = int(found[1]) * 1024 if found else bytes_of_each
    return max(1, min(len(os.sched_getaffinity(0)), free // bytes_of_each))


def start(task: Task) -> RunningTask:
    """Starts a task; no thread runs meanwhile. Where the launcher is killed, the toolchain ends what it started."""
    wrote = tempfile.TemporaryFile()
    process = subprocess.Popen(
        task.command,
        cwd=task.folder,
        stdin=subprocess.DEVNULL,
        stdout=wrote,
        stderr=subprocess.STDOUT,
        preexec_fn=ending_with_launcher(signal.SIGTERM),
    )
    return RunningTask(task, process, wrote, time.monotonic())


def side_by_side(tasks: Sequence[Task], lanes: int) -> Iterator[Done]:
    """Runs the tasks, the first ones first, and yields each as it ends."""
    waiting, running = list(tasks), list[RunningTask]()
    told_at = began = time.monotonic()
    try:
        while waiting or running:
            while waiting and len(running) < lanes:
                running.append(start(waiting.pop(0)))
            ended = [run for run in running if run.process.poll() is not None]
            for run in ended:
                running.remove(run)
                told_at = time.monotonic()
                yield run.done()
            if not ended:
                time.sleep(LOOK_SECONDS)
            if time.monotonic() - told_at > TELL_SECONDS:
                told_at = time.monotonic()
                tell(told(running, waiting, told_at - began))
    finally:
        for run in running:
            # (the toolchain ends what it started at this signal)
            run.process.terminate()
            run.process.wait()


def told(running: Sequence[RunningTask], waiting: Sequence[Task], seconds: float) -> str:
    names = ", ".join(run.task.name for run in running)
    return f"after {minutes(seconds)} {names} run, and {len(waiting)} wait"
