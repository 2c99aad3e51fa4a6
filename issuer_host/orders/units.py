"""Stops units of the service manager for a while, and has those that ran started again, however this process ends."""
import contextlib
import subprocess
from collections.abc import Iterator, Sequence

from issuer_host.facts.refusal import Refusal

RUNNING = ("active", "activating", "reloading")
# A shell of its own session: it waits for the end of its input, which comes with the end of whoever started it.
GUARD = ("/bin/sh", "-c", 'read -r _; exec systemctl start "$@"', "guard")
START_SECONDS = 120


def runs(unit: str) -> bool:
    """Whether a unit runs, or is about to."""
    command = ["systemctl", "show", "--property=ActiveState", "--value", unit]
    ran = subprocess.run(command, capture_output=True, text=True, check=True)
    return ran.stdout.strip() in RUNNING


@contextlib.contextmanager
def stopped(units: Sequence[str]) -> Iterator[None]:
    """Stops units. Those that ran are started again at the end, also of a process that is killed."""
    if not units:
        yield
        return
    try:
        running = [unit for unit in units if runs(unit)]
        guard = subprocess.Popen([*GUARD, *running], stdin=subprocess.PIPE, start_new_session=True) if running else None
    except (OSError, subprocess.CalledProcessError) as fault:
        raise Refusal(f"the services can't be asked for: {fault}; nothing was ordered") from fault
    try:
        stop(units)
        yield
    finally:
        if guard and guard.stdin:
            guard.stdin.close()
            with contextlib.suppress(subprocess.TimeoutExpired):
                guard.wait(START_SECONDS)


def stop(units: Sequence[str]) -> None:
    try:
        subprocess.run(["systemctl", "stop", *units], check=True)
    except (OSError, subprocess.CalledProcessError) as fault:
        raise Refusal(f"the services can't be stopped: {fault}; nothing was ordered") from fault
