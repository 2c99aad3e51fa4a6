"""A deposed bridge that was deaf for a while and then writes: what random rounds seldom have."""
import os
import time

from issuer_host.facts.journals import journal_path
from trials.bridges.cards import distinct_lines
from trials.bridges.farm import CARDS
from trials.bridges.tally import Tally
from trials.machines.asker import ClusterAsker
from trials.machines.events import haunt
from trials.machines.history import check_equal, whole_lines
from trials.machines.machines import Machines

LINES = 60
ANSWER_SECONDS = 300.0
SETTLE_SECONDS = 60.0
LOOK_SECONDS = 1.0


def play_haunted(machines: Machines, tally: Tally, seconds: float = ANSWER_SECONDS) -> None:
    """Asks lines before and after a deposed bridge wrote, and holds journals against what counts.

    Nodes by a wrong rule may answer nothing more, so a line without an answer is only counted.
    """
    machines.begin()
    machines.wait_until_served()
    lines = distinct_lines(CARDS, LINES)
    ask(machines, lines[: LINES // 2], tally, seconds)
    for partition in range(machines.partitions):
        haunt(machines, partition)
    ask(machines, lines[LINES // 2 :], tally, seconds)
    wait_until_same(machines)
    # (what is the same by now stays so)
    check_equal(tally, machines, seconds / 5)
    machines.end_nodes()


def ask(machines: Machines, lines: list[str], tally: Tally, seconds: float) -> None:
    from issuer_host.broker.publisher import Unanswered

    try:
        with ClusterAsker(machines.partitions, machines.publisher_files(), seconds=seconds) as asker:
            answers = dict(asker.ask_all(lines))
        fresh = [answer for answer in answers.values() if answer.startswith("fresh ")]
        tally.check(len(fresh) == len(lines), f"{len(fresh)} of {len(lines)} requests were decided")
    except Unanswered as fault:
        tally.check(False, str(fault))


def wait_until_same(machines: Machines) -> None:
    """Waits until the machines' journals are the same, or for a while."""
    end = time.monotonic() + SETTLE_SECONDS
    while time.monotonic() < end and not are_same(machines):
        time.sleep(LOOK_SECONDS)


def are_same(machines: Machines) -> bool:
    return all(
        whole_lines(path_of(machines, 0, partition)) == whole_lines(path_of(machines, number, partition))
        for partition in range(machines.partitions)
        for number in range(1, len(machines.network.machines))
    )


def path_of(machines: Machines, number: int, partition: int) -> str:
    """Returns the journal of the shard that a deposed bridge writes to, on a machine."""
    return journal_path(machines.journal_of(machines.network.machines[number], partition), 0)


def room_of(folder: str, name: str) -> str:
    """Returns a folder for one trial of several."""
    path = os.path.join(folder, name)
    os.makedirs(path)
    return path
