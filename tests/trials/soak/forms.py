"""The forms that a soak runs: a gateway over its host, before two bridges, and before the nodes of three machines.

Beside each runs a status page that somebody looks at; beside the host or the bridges a standby of another machine,
which follows the journals.
"""
import contextlib
import os
import subprocess
import threading
import urllib.request
from collections.abc import Callable, Iterator, Sequence
from typing import NamedTuple

from gateway.gateways import Gateway, Issuer
from issuer_host.facts.paths import HOME
from machines.nodes import Room
from status.two_bridges import TwoBridges
from switch.link import Place
from trials.bridges.private_broker import PrivateBroker, free_port
from trials.soak.spools import Spool

# A host's memory grows until each card has a window of 256 decisions: of so many cards at 400 messages a second for six
# minutes. Each has 65,536 ATCs, and two hours take 4,800 of them.
CARDS = 512
FIRST_PAN = f"4{0:015d}"
# A host that loads a million records takes none meanwhile, and what comes then waits for it.
PATIENCE = ("--seconds", "60", "--in-flight", "65536", "--of-connection", "65536", "--window", "256")
LOOK_SECONDS = 2.0


class Form(NamedTuple):
    """A form that runs: its processes, where it is asked, its cards, how it is ordered at, and its spool."""

    roots: Callable[[], list[int]]
    place: Place
    config: str
    order: Callable[[int], str]
    spool: Spool
    # Journals and those of their standby; none where no standby follows.
    followed: tuple[str, str]


class Rooms(NamedTuple):
    """Where a form lies: its journals, and what isn't in the same memory."""

    journals: str
    others: str
    program: str


def by_order(words: Sequence[str]) -> Callable[[int], str]:
    """Returns what gives an order, that a card's status is set to 0, and says why it wasn't done, if it wasn't."""

    def order(number: int) -> str:
        command = [f"{HOME}/deploy/order", *words, "--number", f"soak-{number}"]
        line = f"S {FIRST_PAN} 00 0\n"
        done = subprocess.run(command, input=line, text=True, capture_output=True, check=False)
        return f"order {number}: {done.stdout} {done.stderr}" if done.returncode else ""

    return order


@contextlib.contextmanager
def ended(process: "subprocess.Popen[bytes]") -> Iterator[int]:
    try:
        yield process.pid
    finally:
        process.terminate()
        try:
            process.wait(60)
        except subprocess.TimeoutExpired:
            process.kill()
            process.wait()


@contextlib.contextmanager
def status_page(folder: str, lines: Sequence[str]) -> Iterator[int]:
    """Runs the status page over these sources, and looks at it as a browser does."""
    sources, port, ends = os.path.join(folder, "sources"), free_port(), threading.Event()
    with open(sources, "w", encoding="utf-8") as text:
        text.writelines(f"{line}\n" for line in lines)

    def look() -> None:
        while not ends.wait(LOOK_SECONDS):
            with contextlib.suppress(OSError), urllib.request.urlopen(f"http://127.0.0.1:{port}/part", timeout=5) as it:
                it.read()

    thread = threading.Thread(target=look, daemon=True)
    thread.start()
    try:
        with ended(subprocess.Popen([f"{HOME}/deploy/status", "--sources", sources, "--port", str(port)])) as pid:
            yield pid
    finally:
        ends.set()
        thread.join()


@contextlib.contextmanager
def standby(rooms: Rooms, config: str, journal: str) -> Iterator[tuple[int, str]]:
    """Keeps a standby of journals, as another machine does."""
    folder = os.path.join(rooms.others, "standby")
    os.mkdir(folder, mode=0o700)
    copy = os.path.join(folder, "journal")
    words = ["--begin", "--program", rooms.program, "--config", config, "--journal", copy]
    feed = ["--", f"{HOME}/deploy/follow", "--journal", journal]
    with open(os.path.join(rooms.others, "standby.log"), "wb") as log:
        process = subprocess.Popen([f"{HOME}/deploy/standby", *words, *feed], stderr=log)
    with ended(process) as pid:
        yield pid, copy


@contextlib.contextmanager
def gateway_of(rooms: Rooms, issuer: Issuer, *words: str, hosts: "list[str] | None" = None) -> Iterator[Gateway]:
    with Gateway(issuer, *PATIENCE, *words, hosts=hosts) as running:
        try:
            yield running
        finally:
            with open(os.path.join(rooms.others, "gateway.log"), "w", encoding="utf-8") as log:
                log.write(running.said)


def process_of(running: Gateway) -> int:
    assert running.process is not None
    return running.process.pid


@contextlib.contextmanager
def gateway(rooms: Rooms) -> Iterator[Form]:
    """A gateway with its own host."""
    issuer = Issuer(rooms.journals, rooms.program, CARDS, 1, 2)
    socket, figures = os.path.join(rooms.journals, "orders"), free_port()
    spool = Spool(os.path.join(rooms.others, "spool"))
    journal = os.path.join(rooms.journals, "0", "journal")
    words = ["--figures", str(figures), "--orders", socket, "--spool", spool.folder]
    with contextlib.ExitStack() as stack:
        running = stack.enter_context(gateway_of(rooms, issuer, *words))
        page = stack.enter_context(status_page(rooms.others, [f"issuer-gateway http://127.0.0.1:{figures}/metrics"]))
        follower, copy = stack.enter_context(standby(rooms, issuer.all, journal))
        pids = [process_of(running), page, follower]
        order = by_order(["--socket", socket])
        yield Form(lambda: pids, running.place(), issuer.all, order, spool, (journal, copy))


@contextlib.contextmanager
def broker_of(folder: str) -> Iterator[tuple[PrivateBroker, int]]:
    broker = PrivateBroker(os.path.join(folder, "broker"))
    broker.start()
    try:
        broker.wait()
        assert broker.process is not None
        yield broker, broker.process.pid
    finally:
        broker.end()


@contextlib.contextmanager
def before_broker(rooms: Rooms, broker: PrivateBroker, spool: Spool, figures: int) -> Iterator[Gateway]:
    """A gateway whose host is behind a broker."""
    unused = os.path.join(rooms.others, "unused")
    os.mkdir(unused, mode=0o700)
    issuer = Issuer(unused, rooms.program, 1)
    hosts = ["--broker-file", broker.url_file, "--partitions", "1"]
    words = ["--figures", str(figures), "--spool", spool.folder]
    with gateway_of(rooms, issuer, *words, hosts=hosts) as running:
        yield running


@contextlib.contextmanager
def bridges(rooms: Rooms) -> Iterator[Form]:
    """Two bridges behind a broker, and a gateway before it."""
    os.mkdir(os.path.join(rooms.journals, "0"), mode=0o700)
    spool, figures = Spool(os.path.join(rooms.others, "spool")), free_port()
    with contextlib.ExitStack() as stack:
        broker, server = stack.enter_context(broker_of(rooms.others))
        two = TwoBridges(rooms.journals, broker.url_file, rooms.program, CARDS)
        stack.callback(two.end)
        two.begin()
        running = stack.enter_context(before_broker(rooms, broker, spool, figures))
        page = stack.enter_context(status_page(rooms.others, two.lines()))
        follower, copy = stack.enter_context(standby(rooms, two.config, two.journal))
        pids = [server, process_of(running), page, follower, *(one.pid for one in two.running.values())]
        order = by_order(["--socket", *two.sockets()])
        yield Form(lambda: pids, running.place(), two.config, order, spool, (two.journal, copy))


@contextlib.contextmanager
def nodes(rooms: Rooms) -> Iterator[Form]:
    """A node on each of three machines behind a broker, and a gateway before it."""
    spool, figures = Spool(os.path.join(rooms.others, "spool")), free_port()
    with contextlib.ExitStack() as stack:
        broker, server = stack.enter_context(broker_of(rooms.others))
        room = Room(os.path.join(rooms.journals, "room"), broker, rooms.program, [0])
        stack.callback(room.end)
        room.begin(3)
        ports = {machine.name: free_port() for machine in room.machines}
        for machine in room.machines:
            machine.write({**machine.told(), "figures": ports[machine.name]})
            room.give(machine, CARDS)
        running = stack.enter_context(before_broker(rooms, broker, spool, figures))
        sources = [f"{name} http://127.0.0.1:{port}/metrics" for name, port in ports.items()]
        page = stack.enter_context(status_page(rooms.others, sources))
        pids = [machine.process.pid for machine in room.machines if machine.process is not None]
        order = by_order(["--node-file", *(machine.file for machine in room.machines)])
        config = room.machines[0].told()["partitions"][0]["configuration"]
        place = running.place()
        yield Form(lambda: [server, process_of(running), page, *pids], place, config, order, spool, ("", ""))


FORMS = {"gateway": gateway, "bridges": bridges, "nodes": nodes}
