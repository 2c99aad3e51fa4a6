"""A bridge as a service manager runs it by the unit, and what can happen to its process."""
import collections
import contextlib
import os
import re
import signal
import socket
import subprocess
import time
from collections.abc import Callable, Sequence
from typing import Optional, Union

from issuer_host.facts.paths import HOME

UNIT = os.path.join(HOME, "deploy/units/issuer@.service")
WATCHDOG_SECONDS = 5.0
# Before it says that it is ready (TimeoutStartSec= of the unit).
START_SECONDS = 20.0
RESTART_SECONDS = 0.1
END_SECONDS = 10


def not_restarted() -> list[int]:
    """Returns the statuses after which the unit isn't started again."""
    with open(UNIT, encoding="utf-8") as text:
        found = re.search(r"^RestartPreventExitStatus=(.*)$", text.read(), re.MULTILINE)
    return [int(word) for word in found[1].split()] if found else []


class ManagedBridge:
    """A bridge that is started again when it ends as the unit says, and killed when its watchdog hears nothing."""

    def __init__(
        self,
        room: str,
        partition: int,
        number: int,
        command: Sequence[str],
        child: Optional[Callable[[], None]] = None,
    ) -> None:
        self.partition = partition
        self.number = number
        self.command = command
        # Done in the process before the bridge begins.
        self.child = child
        self.prevented = not_restarted()
        # Whether it ended with a status after which it isn't started again, and whether a person has stopped its unit.
        self.is_down = False
        self.is_held = False
        self.process: "Optional[subprocess.Popen[bytes]]" = None
        self.ends: collections.Counter[Union[int, str]] = collections.Counter()
        self.heard = 0.0
        # Whether it said so.
        self.is_ready = False
        self.died = 0.0
        self.path = os.path.join(room, f"notify-{partition}-{number}")
        self.socket = socket.socket(socket.AF_UNIX, socket.SOCK_DGRAM)
        self.socket.bind(self.path)
        self.socket.setblocking(False)
        self.log = os.path.join(room, f"bridge-{partition}-{number}.log")

    def start(self) -> None:
        environment = dict(os.environ) | {"NOTIFY_SOCKET": self.path}
        with open(self.log, "ab") as log:
            self.process = subprocess.Popen(
                self.command,
                stdin=subprocess.DEVNULL,
                stderr=log,
                env=environment,
                preexec_fn=self.child,
                start_new_session=True,
            )
        # (the watchdog begins with the first notice)
        self.heard = time.monotonic() + START_SECONDS - WATCHDOG_SECONDS
        self.is_ready = False
        self.died = 0.0

    def listen(self, now: float) -> None:
        """Takes what the bridge told its service manager."""
        try:
            while said := self.socket.recv(4096):
                self.heard = now
                self.is_ready = self.is_ready or b"READY=1" in said
        except BlockingIOError:
            pass

    def look(self, now: float) -> None:
        """One look of the service manager."""
        if self.process is None:
            return
        self.listen(now)
        status = self.process.poll()
        if status is not None and not self.died:
            self.end_group()
            self.died = now
            self.ends[status] += 1
            self.is_down = status in self.prevented
        elif status is None and now - self.heard > WATCHDOG_SECONDS:
            self.ends["watchdog"] += 1
            self.process.kill()
        if self.died and not self.is_down and not self.is_held and now - self.died > RESTART_SECONDS:
            self.start()

    def hold(self) -> None:
        """Its unit is stopped: it isn't started again by itself."""
        self.is_held = True

    def release(self) -> None:
        """Its unit is started by hand."""
        self.is_held = self.is_down = False

    def wait(self) -> None:
        """Waits for its end, and kills it if it doesn't end."""
        if self.process:
            try:
                self.process.wait(END_SECONDS)
            except subprocess.TimeoutExpired:
                self.process.kill()
                self.process.wait()

    def end_group(self) -> None:
        """Kills what a bridge that ended left behind (KillMode=mixed of the unit)."""
        if self.process:
            with contextlib.suppress(ProcessLookupError):
                os.killpg(self.process.pid, KILL)

    def signal(self, number: int) -> None:
        if self.process:
            signal_to(self.process.pid, number)

    def host(self) -> Optional[int]:
        """Returns the process id of its host, or None."""
        if self.process is None:
            return None
        try:
            children = children_of(self.process.pid)
        except OSError:
            return None
        return children[0] if children else None

    def end(self) -> None:
        """Waits until it ended, and kills it if it doesn't."""
        self.wait()
        self.end_group()
        self.socket.close()


def signal_to(process: int, number: int) -> None:
    """Sends a signal to a process that may have ended."""
    try:
        os.kill(process, number)
    except ProcessLookupError:
        pass


def children_of(process: int) -> list[int]:
    with open(f"/proc/{process}/task/{process}/children", encoding="ascii") as text:
        return [int(word) for word in text.read().split()]


KILL, STOP, GO_ON, TERMINATE = signal.SIGKILL, signal.SIGSTOP, signal.SIGCONT, signal.SIGTERM
