"""Brokers that come back from older disks: a stream lacks its end, and begins anew (docs/operate/nodes.md)."""
import os
import shutil
import subprocess

from issuer_host.facts.answers import reply_of
from issuer_host.facts.paths import HOME
from issuer_host.replication import positions
from machines.replacing_trial import ANSWER_SECONDS, ReplacingTrial, SETTLE_SECONDS
from trials.bridges.cards import distinct_lines
from trials.bridges.farm import CARDS
from trials.machines.asker import ClusterAsker
from trials.machines.brokers import OPERATOR, comes
from trials.machines.haunting import are_same
from trials.machines.machines import Machines
from trials.machines.network import Machine

NODE, QUEUES = (os.path.join(HOME, "deploy", name) for name in ("node", "queues"))
BEFORE, AFTER = 20, 40
LOST, COMMAND = "lost its end", "--anew"


def answers_of(machines: Machines, lines: list[str]) -> dict[str, str]:
    with ClusterAsker(machines.partitions, machines.publisher_files(), seconds=ANSWER_SECONDS) as asker:
        return dict(asker.ask_all(lines))


def end_brokers(machines: Machines) -> None:
    machines.kill_nodes()
    for node in machines.brokers.nodes:
        node.kill()


def start_brokers(machines: Machines) -> None:
    for node in machines.brokers.nodes:
        node.start()
    machines.wait_for_brokers()
    machines.start_nodes()


def lost_end(trial: ReplacingTrial) -> None:
    """What was answered past the end that was lost is kept, with the same reply."""
    machines, tally = trial.machines, trial.tally
    lines = distinct_lines(CARDS, BEFORE + AFTER)
    answers_of(machines, lines[:BEFORE])
    end_brokers(machines)
    for node in machines.brokers.nodes:
        shutil.copytree(os.path.join(node.folder, "data"), os.path.join(node.folder, "older"))
    start_brokers(machines)
    answered = answers_of(machines, lines)
    # (a machine whose position is before the end that is lost can't see that it is)
    tally.check(comes(lambda: are_level(machines), SETTLE_SECONDS), "the machines' positions don't come to be the same")
    end_brokers(machines)
    for node in machines.brokers.nodes:
        node.wipe()
        os.rename(os.path.join(node.folder, "older"), os.path.join(node.folder, "data"))
    start_brokers(machines)
    tally.check(
        comes(lambda: all(LOST in node.texts() for node in machines.nodes), SETTLE_SECONDS),
        "a machine goes on with a stream that lost its end",
    )
    tally.check(all(COMMAND in node.texts() for node in machines.nodes), "the log doesn't name the command")
    machines.end_nodes_alone()
    begin_anew(trial)
    machines.start_nodes()
    again = answers_of(machines, lines)
    others = [line for line in lines if again[line] != f"kept {reply_of(answered[line])}"]
    tally.check(not others, f"{len(others)} of {len(lines)} answers are others: {again[others[0]] if others else ''}")
    # (what they begin with is in the journals alone, and not in the new stream)
    tally.check(comes(lambda: are_same(machines), SETTLE_SECONDS), "the machines' journals aren't the same")


def are_level(machines: Machines) -> bool:
    """Whether all machines' positions are at the same message, beyond the last barrier."""
    for partition in range(machines.partitions):
        journals = [machines.journal_of(machine, partition) for machine in machines.network.machines]
        if len({positions.read(journal).offset for journal in journals}) > 1:
            return False
    return True


def begin_anew(trial: ReplacingTrial) -> None:
    """Does the steps of docs/operate/nodes.md#a-stream-that-lost-its-end, with copies of all machines' journals."""
    machines, tally = trial.machines, trial.tally
    for machine in machines.network.machines:
        source = os.path.join(machines.folder(machine), "journals")
        shutil.copytree(source, os.path.join(machines.room, "copies", machine.name))
    said = [
        run(trial, machine, [NODE, "--anew", *words_of(machines, machine)]) for machine in machines.network.machines
    ]
    for partition in range(machines.partitions):
        digests = {line.split()[-1] for text in said for line in text.splitlines() if f"partition {partition}:" in line}
        tally.check(len(digests) == 1, f"partition {partition} begins with different journals: {said}")
    tally.check(all("served last" in text for text in said), f"why is not said: {said}")
    again = run(
        trial, machines.network.machines[0], [NODE, "--anew", *words_of(machines, machines.network.machines[0])]
    )
    tally.check(again.count("is left as it is") == machines.partitions, f"run again: {again}")
    words = [QUEUES, "--partitions", str(machines.partitions), "--streams-anew"]
    run(trial, machines.network.machines[0], [*words, "--broker-file", machines.file_of(OPERATOR)])


def words_of(machines: Machines, machine: Machine) -> list[str]:
    others = [one.name for one in machines.network.machines if one != machine]
    return [machines.node_of(machine).file, *(f"{name}={machines.room}/copies/{name}/{{}}/journal" for name in others)]


def run(trial: ReplacingTrial, machine: Machine, words: list[str]) -> str:
    words = trial.machines.network.command(machine, words)
    done = subprocess.run(words, capture_output=True, text=True, check=False)
    trial.tally.check(done.returncode == 0, f"{words}: {done.stdout}{done.stderr}")
    return done.stdout
