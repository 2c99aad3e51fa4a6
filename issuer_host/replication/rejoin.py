"""Watches the broker's node of this machine: mends what mends by itself, says what doesn't, and gives figures of it.

usage: rejoin [--every SECONDS] [--control COMMAND] [--vhost NAME] [--hung SECONDS] [--kill COMMAND] [--figures PORT]

--every    how often it looks (10)
--control  the command that controls the broker (rabbitmqctl); to ask another node, it is given --node
--vhost    the virtual host (/)
--hung     how long a node may not run while others do, until it is killed (60); twice as long after each time
--kill     the command that kills this machine's broker, which its service manager starts again
           (systemctl kill --signal=KILL rabbitmq-server)
--figures  serves figures at this port of the loopback: brokers, copies of queues and streams, alarms

A machine that stood still for a while may go on with a node of the broker that has lost all others, and that they have
lost. By then all hear one another, so `pause_minority` ends no node. A reply queue of the one isn't known to the
others: their answers go nowhere, and so it stays. This looks for such a node, stops it, and starts it again. It kills
one that hangs in its start while the others run. One that runs in a cluster of its own, as on a new disk, it reports:
issuer-replace gives it its place. Run it beside each node of a cluster, as the broker's user or root, under a service
manager. End it before you stop a broker's node for longer than a minute.
"""
import argparse
import shlex
import subprocess
import time
from collections.abc import Sequence
from typing import NamedTuple, Optional

from issuer_host.broker.redundancy import Redundancy, redundancy_of, replaces, what_is_lost
from issuer_host.broker.settings import COMMAND, Control
from issuer_host.broker.broker_watch import Act, BrokerWatch, HUNG_SECONDS
from issuer_host.facts.refusal import Refusal
from issuer_host.facts.troubles import Level, say
from issuer_host.telling.broker_figures import page_of
from issuer_host.telling.figures_server import FiguresServer

NAME = "rejoin"
KILL = "systemctl kill --signal=KILL rabbitmq-server"
# A start that fails, as while the others are gone, is tried again after so long.
AGAIN_SECONDS = 2.0


class RejoinOptions(NamedTuple):
    """The words of the command."""

    every: float
    control: str
    vhost: str
    hung: float
    kill: str
    figures: int


def options_of(words: Sequence[str]) -> RejoinOptions:
    parser = argparse.ArgumentParser(usage=__doc__)
    parser.add_argument("--every", type=float, default=10.0)
    parser.add_argument("--control", default=COMMAND)
    parser.add_argument("--vhost", default="/")
    parser.add_argument("--hung", type=float, default=HUNG_SECONDS)
    parser.add_argument("--kill", default=KILL)
    parser.add_argument("--figures", type=int, default=0)
    return RejoinOptions(**vars(parser.parse_args(words)))


class Watcher:
    """Looks at the node, and does what its state asks for."""

    def __init__(self, options: RejoinOptions) -> None:
        self.options = options
        self.watch = BrokerWatch(options.hung)
        self.page = b""
        self.told: list[str] = []

    def control(self, *node: str) -> Control:
        return Control(self.options.control, self.options.vhost, node)

    def seen(self, *node: str) -> Optional[Redundancy]:
        """Returns what a node sees; nothing if it doesn't answer."""
        try:
            return redundancy_of(self.control(*node))
        except (Refusal, ValueError):
            return None

    def runs(self, broker: str) -> bool:
        seen = self.seen("--node", broker)
        return seen is not None and seen.runs

    def look(self) -> None:
        seen = self.seen()
        self.page = page_of(seen, time.time()).encode()
        act = self.watch.look(time.monotonic(), seen, self.runs)
        if act is Act.START_AGAIN:
            self.start_again()
        elif act is Act.KILL:
            say(NAME, Level.WARNING, act.value)
            self.kill()
        elif act is Act.TELL_ALONE and seen is not None:
            # (it sees no other that runs: its configuration names them)
            say(NAME, Level.WARNING, f"{act.value}: {replaces(seen.node, seen._replace(running=seen.others()))}")
        self.tell_lost(what_is_lost(seen) if seen is not None and seen.runs and not seen.is_of_its_own() else [])

    def tell_lost(self, lost: list[str]) -> None:
        """Tells each copy that is missing once, and once that all are there again."""
        for line in lost:
            if line not in self.told:
                say(NAME, Level.WARNING, line)
        if self.told and not lost:
            say(NAME, Level.NOTICE, "nothing is missing any more, by this node")
        self.told = lost

    def start_again(self) -> None:
        say(NAME, Level.WARNING, Act.START_AGAIN.value)
        control = self.control()
        stop = [control.command, "--quiet", "stop_app"]
        subprocess.run(stop, capture_output=True, check=False)
        start = [control.command, "--quiet", "start_app"]
        while (started := subprocess.run(start, capture_output=True, text=True, check=False)).returncode:
            say(
                NAME,
                Level.WARNING,
                f"the broker's node doesn't start: {(started.stderr or started.stdout).strip()[:200]}",
            )
            time.sleep(AGAIN_SECONDS)
        say(NAME, Level.NOTICE, "the broker's node has joined the others")

    def kill(self) -> None:
        killed = subprocess.run(shlex.split(self.options.kill), capture_output=True, text=True, check=False)
        if killed.returncode:
            say(NAME, Level.ERROR, f"the broker can't be killed: {(killed.stderr or killed.stdout).strip()[:200]}")


def main(words: Sequence[str]) -> int:
    options = options_of(words)
    watcher = Watcher(options)
    if options.figures:
        FiguresServer(options.figures, lambda: watcher.page).start()
    while True:
        watcher.look()
        time.sleep(options.every)
