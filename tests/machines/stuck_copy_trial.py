"""A copy of a stream that its broker can't start any more: it is seen, an alert fires, and a command mends it."""
import contextlib
import glob
import os
import struct
import subprocess

from issuer_host.broker import topology
from issuer_host.broker.redundancy import what_is_lost
from machines.alert_trial import WATCH_PORT, FaultFigures
from machines.replacing_trial import DONE, REPLACE, SETTLE_SECONDS, ReplacingTrial
from trials.machines.brokers import BrokerNode, comes, name_of
from trials.machines.events import leader_of
from trials.machines.network import Machine

# The head of a chunk of a stream's log: from its magic to the length of its trailer.
HEAD = struct.Struct(">BBHIqQQIIII")
MAGIC, OF_DATA = 5, 0
EPOCH_AT = 16


def segments_of(broker: BrokerNode, partition: int) -> "list[str]":
    """Returns the files of a broker's copy of a partition's stream, in their order."""
    name = f"__{topology.stream_of(partition)}_*".replace(".", "_")
    return sorted(glob.glob(os.path.join(broker.folder, "data", "*", "stream", name, "*.segment")))


def chunks_of(data: bytes) -> "list[tuple[int, int]]":
    """Returns where the chunks of a segment begin, and the epoch of each. (After eight bytes: `OSIL`, a version.)"""
    found, at = [], 8
    while at + HEAD.size <= len(data):
        head = HEAD.unpack_from(data, at)
        if head[0] >> 4 != MAGIC:
            break
        found.append((at, head[5]))
        at += HEAD.size + head[8] + head[9]
    return found


def make_last_older(broker: BrokerNode, partition: int) -> "tuple[int, int]":
    """Writes an older epoch into the last chunk of a copy. Returns the epoch before, and the one that it has now."""
    path = segments_of(broker, partition)[-1]
    with open(path, "r+b") as file:
        at, epoch = chunks_of(file.read())[-1]
        file.seek(at + EPOCH_AT)
        file.write(struct.pack(">Q", epoch - 1))
    return epoch, epoch - 1


def broken_copy(trial: ReplacingTrial) -> Machine:
    """Makes a machine's last chunk of partition 0's stream one of an older epoch, and has the others begin a new epoch.

    Its copy ends where the others' epoch ended: so nothing of it is cut off, and the chunk is another one than theirs.
    """
    machines = trial.machines
    leader = leader_of(machines, 0)
    broken = next(one for one in reversed(machines.network.machines) if one != leader)
    machines.kill_nodes()
    machines.broker_of(broken).kill()
    make_last_older(machines.broker_of(broken), 0)
    for one in (leader, broken):
        broker = machines.broker_of(one)
        broker.kill()
        broker.start()
        broker.wait()
        led = comes(lambda: has_leader(trial), SETTLE_SECONDS)
        trial.tally.check(led, "the stream has no leader")
    machines.start_nodes()
    return broken


def has_leader(trial: ReplacingTrial) -> bool:
    with contextlib.suppress(RuntimeError):
        return bool(leader_of(trial.machines, 0))
    return False


def what_is_expected(broken: Machine, living: Machine) -> "list[str]":
    """Returns what is said of the copy, with the command that mends it."""
    command = f"issuer-replace {name_of(broken)} --by {name_of(living)}"
    return [f"{name_of(broken)} answers with no copy of {topology.stream_of(0)}: {command}"]


def broken_and_named(trial: ReplacingTrial) -> "tuple[Machine, Machine]":
    """Breaks a copy. It is named. Returns its machine, and one that lives."""
    broken = broken_copy(trial)
    living = next(one for one in trial.machines.network.machines if one != broken)
    expected = what_is_expected(broken, living)
    is_named = comes(lambda: what_is_lost(trial.seen_by(living)) == expected, SETTLE_SECONDS)
    trial.tally.check(is_named, f"what is said of it: {what_is_lost(trial.seen_by(living))}")
    return broken, living


def stuck_copy(trial: ReplacingTrial) -> None:
    """A copy ends with a chunk of an older epoch: its broker never starts it again, until it is made anew."""
    machines, tally = trial.machines, trial.tally
    trial.ask()
    broken, living = broken_and_named(trial)
    trial.ask()
    words = [REPLACE, name_of(broken), "--by", name_of(living), "--control"]
    words = machines.network.command(broken, [*words, machines.broker_of(broken).write_control()])
    done = subprocess.run(words, capture_output=True, text=True, check=False)
    anew = f"give the new broker anew the copies of the streams {topology.stream_of(0)}"
    is_done = anew in done.stdout and DONE in done.stdout
    tally.check(is_done, f"issuer-replace: {done.stdout}{done.stderr}")
    print(done.stdout, end="")
    if is_done:
        trial.whole("after the copy was made anew")


def stuck_copy_alerts(trial: ReplacingTrial) -> None:
    """While a copy can't start its alerts fire, and no page: it stays so."""
    figures, machines = FaultFigures(trial), trial.machines
    trial.ask()
    figures.begin()
    figures.watch(20.0)
    broken, living = broken_and_named(trial)
    for one in machines.network.machines:
        machines.broker_of(one).watch("--every", "3", "--figures", str(WATCH_PORT))
    # (without a copy at its broker the machine's node can't read the stream either: that is one thing, and no page)
    figures.watch(150.0, "IssuerCopyMissing", "IssuerMachineMissing")
    figures.check()
    later = what_is_lost(trial.seen_by(living))
    trial.tally.check(later == what_is_expected(broken, living), f"later: {later}")
