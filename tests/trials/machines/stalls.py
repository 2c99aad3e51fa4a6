"""Says where a trial stands while nothing moves for long: what it does, what that lacks, and what each node does."""
import threading
import time
from collections.abc import Callable

from trials.machines.machines import Machines, state_of

LOOK_SECONDS, LONG_SECONDS = 5.0, 90.0


def nothing() -> str:
    return ""


class Stalls:
    """Looks at a trial beside it, and prints where it stands each time that it has stood still for so long."""

    def __init__(self, machines: Machines, long: float = LONG_SECONDS) -> None:
        self.machines, self.long = machines, long
        # What the trial does, and what says what that lacks.
        self.what, self.lacks = "", nothing
        self.moved = time.monotonic()
        self.is_over = threading.Event()
        self.thread = threading.Thread(target=self.look, daemon=True)

    def __enter__(self) -> "Stalls":
        self.thread.start()
        return self

    def __exit__(self, *_: object) -> None:
        self.is_over.set()
        self.thread.join()

    def begins(self, what: str, lacks: Callable[[], str] = nothing) -> None:
        """Something begins, and what was before has ended."""
        self.what, self.lacks = what, lacks
        self.move()

    def waits(self, what: str, lacks: Callable[[], str] = nothing) -> None:
        """The trial waits for something from here on."""
        if self.machines.is_loud:
            print(f"{time.strftime('%H:%M:%S')} waits until {what}", flush=True)
        self.begins(f"the trial waits until {what}", lacks)

    def move(self) -> None:
        """Somebody was answered, or something else was done."""
        self.moved = time.monotonic()

    def look(self) -> None:
        while not self.is_over.wait(min(LOOK_SECONDS, self.long)):
            still = time.monotonic() - self.moved
            if still > self.long:
                print(self.text(still), flush=True)
                self.move()

    def text(self, still: float) -> str:
        """Returns where the trial stands."""
        lacks = self.lacks()
        lines = [f"nothing moved for {still:.0f} s: {self.what or 'no event'}{': ' if lacks else ''}{lacks}"]
        texts = {node.machine.name: node.texts() if node.is_on else "" for node in self.machines.nodes}
        for number in range(self.machines.partitions):
            states = (f"{name} {state_of(text, number) or 'off'}" for name, text in texts.items())
            lines.append(f"  partition {number}: {', '.join(states)}")
        return "\n".join(lines)
