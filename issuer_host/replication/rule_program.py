"""The rule is a program: events are lines to it, and actions lines of it (`rule_lines`).

One process decides for one partition, from a position on. It has no file, no connection and no clock. A node writes the
turns of what happened together and reads their answers, which takes some microseconds. If the program ends, is silent,
or answers what is no answer, another one begins from the position: until then nobody is answered.

The node's loop stands still while a program answers, with all partitions of the machine. So a silent one is left soon.
"""
import contextlib
import os
import select
import signal
import subprocess
import time
from collections.abc import Callable, Sequence

from issuer_host.replication.messages import SHOWN
from issuer_host.replication.rule_events import Action, Beginning, Event, Publish, Stop
from issuer_host.replication.rule_lines import TURN_END, action_of, lines_of_beginning, lines_of_event, number_of
from issuer_host.replication.standby_run import TransientFault

# A program whose answer isn't whole after so long is killed. A turn takes it some microseconds; where fifty programs
# waited for four processors, one of a million turns took half a second.
SILENT_SECONDS = 1.0
# A wait counts for so long at most. If a whole machine stood still, its programs get time before they are left.
WAIT_SECONDS = 0.05
# How long the end of a program is waited for that was killed, or that has closed its output.
END_SECONDS = 0.2
# A program needs nothing of the node's environment.
ENVIRONMENT: "dict[str, str]" = {}
PIECE = 1 << 16
PUBLISH = "publish "


class RuleProgram:
    """`rule_events.PartitionRule` by a process of its own."""

    def __init__(
        self, command: Sequence[str], beginning: Beginning, clock: Callable[[], float] = time.monotonic
    ) -> None:
        self.clock = clock
        # (if the node dies both pipes end, and so does the program)
        self.process = subprocess.Popen(
            command, stdin=subprocess.PIPE, stdout=subprocess.PIPE, bufsize=0, env=ENVIRONMENT
        )
        assert self.process.stdin is not None and self.process.stdout is not None
        self.input, self.output = self.process.stdin, self.process.stdout
        for pipe in (self.input, self.output):
            os.set_blocking(pipe.fileno(), False)
        self.answers, self.both = select.poll(), select.poll()
        for poll in (self.answers, self.both):
            poll.register(self.output.fileno(), select.POLLIN)
        self.both.register(self.input.fileno(), select.POLLOUT)
        try:
            self.ask([[line] for line in lines_of_beginning(beginning)])
        except TransientFault:
            self.end()
            raise

    def take(self, *events: Event) -> Sequence[Action]:
        """Takes what happened, in this order. Returns what is to be done, in this order."""
        return self.ask([lines_of_event(event) for event in events])

    def look(self) -> None:
        if self.process.poll() is not None:
            raise TransientFault(f"the rule's program ended with {self.process.returncode}")

    def end(self) -> None:
        """Ends the program: it has nothing that another one needs."""
        self.process.kill()
        self.input.close()
        self.output.close()
        # (one that a disk holds ends later, and nobody waits for it)
        with contextlib.suppress(subprocess.TimeoutExpired):
            self.process.wait(END_SECONDS)

    def ask(self, turns: "Sequence[Sequence[str]]") -> "Sequence[Action]":
        """Writes the lines of turns, and returns the actions of their answers, which have to be whole in time."""
        text = "".join(f"{line}\n" for turn in turns for line in turn)
        unwritten = memoryview(text.encode("latin-1"))
        answer = TurnAnswers(len(turns))
        waited, last = 0.0, self.clock()
        while not answer.is_whole:
            unwritten = self.write(unwritten)
            self.wait(bool(unwritten))
            self.read(answer)
            now = self.clock()
            waited, last = waited + min(now - last, WAIT_SECONDS), now
            if waited >= SILENT_SECONDS and not answer.is_whole:
                raise TransientFault(f"the rule's program hasn't answered within {SILENT_SECONDS} seconds")
        return answer.actions

    def write(self, unwritten: memoryview) -> memoryview:
        """Writes what the pipe takes, and returns what it doesn't."""
        try:
            return unwritten[os.write(self.input.fileno(), unwritten) :] if unwritten else unwritten
        except BlockingIOError:
            return unwritten
        except BrokenPipeError:
            # (it is ending; its output's end says how)
            return unwritten[:0]

    def wait(self, writes: bool) -> None:
        """Waits a moment until the program answers, or takes more."""
        (self.both if writes else self.answers).poll(1000 * WAIT_SECONDS)

    def read(self, answer: "TurnAnswers") -> None:
        """Takes what the program has answered so far."""
        with contextlib.suppress(BlockingIOError):
            piece = os.read(self.output.fileno(), PIECE)
            if not piece and answer.stops():
                answer.is_whole = True
            elif not piece:
                raise TransientFault(f"the rule's program ended with {self.status()}")
            try:
                answer.take(piece)
            except (ValueError, KeyError) as fault:
                raise TransientFault(f"the rule's program answered what is no answer: {fault}") from fault

    def status(self) -> int:
        """Returns the status of a program that has closed its output."""
        with contextlib.suppress(subprocess.TimeoutExpired):
            return self.process.wait(END_SECONDS)
        self.process.kill()
        with contextlib.suppress(subprocess.TimeoutExpired):
            return self.process.wait(END_SECONDS)
        return -signal.SIGKILL


class TurnAnswers:
    """What a program has answered to so many turns so far: the actions, and whether that is all."""

    def __init__(self, turns: int) -> None:
        self.actions: "list[Action]" = []
        self.is_whole = not turns
        # How many turns aren't answered.
        self.turns = turns
        # The bytes after the last newline, and a message whose lines are coming: how many more there are.
        self.unread = b""
        self.message: "list[str]" = []
        self.lines_of_message = 0

    def take(self, piece: bytes) -> None:
        """Takes the next bytes. A ValueError or a KeyError says that they are no answer."""
        *lines, self.unread = (self.unread + piece).split(b"\n")
        for line in lines:
            self.take_line(line.decode("latin-1"))

    def take_line(self, line: str) -> None:
        if self.is_whole:
            raise ValueError(f"{line[:SHOWN]!r}, which nobody asked for")
        if self.lines_of_message:
            self.take_line_of_message(line)
        elif line == TURN_END:
            self.turns -= 1
            self.is_whole = not self.turns
        elif line.startswith(PUBLISH):
            self.lines_of_message = number_of(line[len(PUBLISH) :])
        else:
            self.actions.append(action_of(line))
            if self.stops():
                self.turns = 1

    def stops(self) -> bool:
        """Whether the program stops: it answers nothing more, but for the turn's end."""
        return bool(self.actions) and isinstance(self.actions[-1], Stop)

    def take_line_of_message(self, line: str) -> None:
        self.message.append(line)
        self.lines_of_message -= 1
        if not self.lines_of_message:
            self.actions.append(Publish("".join(f"{one}\n" for one in self.message)))
            self.message = []
