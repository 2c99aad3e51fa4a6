"""What happens to the machines in a round of `deploy/chaos --machines`."""
import os
import random
import subprocess
import time
import uuid
from collections.abc import Callable, Mapping
from typing import NamedTuple

from issuer_host.broker import topology
from issuer_host.facts.paths import HOME
from issuer_host.replication.message_mac import MessageMacs
from issuer_host.replication.messages import Barrier
from machines.message_texts import Records
from trials.machines.accidents import ACCIDENTS
from trials.machines.brokers import NODE, wait_for
from trials.machines.history import AWAY_FAULTS, Reader, last_barrier, next_record
from trials.machines.machines import Machines
from trials.machines.network import Machine
from trials.machines.replacing import MachineReplacement
from trials.machines.strangers import write_forgeries
from trials.machines.wire import WireSettings

AWAY_SECONDS = (2.0, 8.0)
STOPPED_SECONDS = 30.0
# What a bad link loses, and how late it is, for how long.
LOST, LATE_SECONDS, WORSE_SECONDS = 0.2, 0.3, 25.0
# What deploy/rejoin reports of a broker that it kills, and how long that takes; and how long all copies may take.
HUNG, HUNG_SECONDS, WHOLE_SECONDS = "it is killed", 300.0, 600
# Limits of a broker's disk, of which it never has the first, and how long it lacks that.
NO_DISK, SOME_DISK, ALARM_SECONDS = "9999GB", "50MB", 12.0
QUEUES = os.path.join(HOME, "deploy", "queues")
BLINKS, BLINK_SECONDS = 4, (0.2, 1.5)
CLOCKS = (-90_000, -3_600, 3_600, 90_000)
# A status that a deposed bridge would record: no row of the table names it.
GHOST_TRIES, STATUS = 20, 3


class Event(NamedTuple):
    """How often it comes, and what is done."""

    weight: int
    does: Callable[[Machines, random.Random], object]


def away(dice: random.Random) -> None:
    time.sleep(dice.uniform(*AWAY_SECONDS))


def lose_power(machines: Machines, dice: random.Random) -> None:
    """A machine is gone without a word."""
    machine = machines.pick_serving(dice)
    machines.switch_off(machine)
    away(dice)
    machines.switch_on(machine)


def kill_machine(machines: Machines, dice: random.Random) -> None:
    """All that runs on a machine is killed, and its connections end."""
    machine = machines.pick_serving(dice)
    machines.switch_off(machine, is_heard=True)
    away(dice)
    machines.switch_on(machine)


def replace_machine(machines: Machines, dice: random.Random) -> None:
    """A machine loses its disk, and begins from copies of another's journals, which go on meanwhile."""
    machine = machines.pick_serving(dice)
    other = dice.choice([one for one in machines.network.machines if one != machine])
    machines.switch_off(machine)
    machines.replace_journals(machine, other)
    machines.switch_on(machine)


def wipe_machine(machines: Machines, dice: random.Random) -> None:
    """A machine loses all its disks, its broker's too, and is replaced by `deploy/replace`."""
    machine = machines.pick_serving(dice)
    living = dice.choice([one for one in machines.network.machines if one != machine])
    machines.switch_off(machine)
    machines.wipe(machine)
    away(dice)
    machines.network.hear(machine)
    MachineReplacement(machines, machine, living).play(dice)


def kill_two(machines: Machines, dice: random.Random) -> None:
    """Two machines go one after another, and come back so."""
    first, second = dice.sample(machines.network.machines, 2)
    machines.switch_off(first)
    away(dice)
    machines.switch_off(second)
    away(dice)
    machines.switch_on(first)
    away(dice)
    machines.switch_on(second)


def kill_all(machines: Machines, dice: random.Random) -> None:
    """All machines go at once, and come back. (What was written stays: their memory isn't lost.)"""
    for machine in machines.network.machines:
        machines.switch_off(machine)
    away(dice)
    for machine in machines.network.machines:
        machines.switch_on(machine)


def cut_machine(machines: Machines, dice: random.Random) -> None:
    """All packets of a machine are lost, for a while."""
    machine = machines.pick_serving(dice)
    machines.network.silence(machine)
    time.sleep(2 * dice.uniform(*AWAY_SECONDS))
    machines.network.hear(machine)


def deafen_machine(machines: Machines, dice: random.Random) -> None:
    """All that is sent to a machine is lost, and what it sends is heard."""
    worsen(machines, dice, WireSettings(0.0, 1.0, 0.0), 2 * dice.uniform(*AWAY_SECONDS))


def mute_machine(machines: Machines, dice: random.Random) -> None:
    """All that a machine sends is lost, and it hears the others."""
    worsen(machines, dice, WireSettings(1.0, 0.0, 0.0), 2 * dice.uniform(*AWAY_SECONDS))


def lose_packets(machines: Machines, dice: random.Random) -> None:
    """A fifth of a machine's packets is lost, both ways."""
    worsen(machines, dice, WireSettings(LOST, LOST, 0.0), WORSE_SECONDS)


def slow_link(machines: Machines, dice: random.Random) -> None:
    """A machine's packets are late, both ways."""
    worsen(machines, dice, WireSettings(0.0, 0.0, LATE_SECONDS), WORSE_SECONDS)


def worsen(machines: Machines, dice: random.Random, settings: WireSettings, seconds: float) -> None:
    with machines.network.worse(machines.pick_serving(dice), settings):
        time.sleep(seconds)


def hang_broker(machines: Machines, dice: random.Random) -> None:
    """A broker's application stops, as where a start hangs, and its node lives: deploy/rejoin kills it."""
    broker = machines.broker_of(machines.pick_serving(dice))
    broker.control("stop_app")
    wait_for(
        lambda: HUNG in text_of(broker.watch_log), HUNG_SECONDS, f"rejoin kills a broker that hangs, {broker.watch_log}"
    )
    broker.wait()


def roll_brokers(machines: Machines, dice: random.Random) -> None:
    """All brokers are started again, each once all copies answer, as docs/operate/three-machines.md upgrades them."""
    for machine in dice.sample(machines.network.machines, len(machines.network.machines)):
        machines.restart_broker(machine, dice.uniform(0.0, 2.0))
        machines.broker_of(machine).wait()
        await_whole(machines, machine)


def await_whole(machines: Machines, machine: Machine) -> None:
    """Waits by deploy/queues until all copies answer."""
    words = [QUEUES, "--await-whole", str(WHOLE_SECONDS), "--partitions", str(machines.partitions)]
    words += ["--control", machines.broker_of(machine).write_control()]
    done = subprocess.run(machines.network.command(machine, words), capture_output=True, text=True, check=False)
    if done.returncode:
        raise RuntimeError(f"after {machine.name} was started again: {done.stdout}{done.stderr}")


def text_of(path: str) -> str:
    with open(path, encoding="utf-8") as text:
        return text.read()


def fill_broker(machines: Machines, dice: random.Random) -> None:
    """A broker has no disk left by its limit: it holds all publishers up for a while."""
    broker = machines.broker_of(machines.pick_serving(dice))
    broker.control("set_disk_free_limit", NO_DISK)
    time.sleep(ALARM_SECONDS)
    broker.control("set_disk_free_limit", SOME_DISK)


def unplug_machine(machines: Machines, dice: random.Random) -> None:
    """A machine's interface is down, for a while."""
    machine = machines.pick_serving(dice)
    machines.network.unplug(machine)
    away(dice)
    machines.network.plug(machine)


def part_machines(machines: Machines, dice: random.Random) -> None:
    """A machine hears one of the two others, and that one hears both."""
    one = machines.pick_serving(dice)
    other = dice.choice([machine for machine in machines.network.machines if machine != one])
    machines.network.part(one, other)
    time.sleep(2 * dice.uniform(*AWAY_SECONDS))
    machines.network.heal()


def blink_link(machines: Machines, dice: random.Random) -> None:
    """A machine's packets are lost again and again."""
    machine = machines.pick_serving(dice)
    for _ in range(BLINKS):
        machines.network.silence(machine)
        time.sleep(dice.uniform(*BLINK_SECONDS))
        machines.network.hear(machine)
        time.sleep(dice.uniform(*BLINK_SECONDS))


def stop_machine(machines: Machines, dice: random.Random) -> None:
    """All that runs on a machine stands still, and goes on as if nothing had been."""
    machine = machines.pick_serving(dice)
    machines.stop(machine)
    time.sleep(STOPPED_SECONDS)
    machines.go_on(machine)


def stop_node(machines: Machines, dice: random.Random) -> None:
    """A node alone stands still: its broker goes on, and gives its queues to others."""
    node = machines.node_of(machines.pick_serving(dice))
    node.stop()
    time.sleep(STOPPED_SECONDS)
    node.go_on()


def kill_node(machines: Machines, dice: random.Random) -> None:
    machines.node_of(machines.pick_serving(dice)).kill()


def end_node(machines: Machines, dice: random.Random) -> None:
    machines.node_of(machines.pick_serving(dice)).terminate()


def kill_host(machines: Machines, dice: random.Random) -> None:
    machines.node_of(machines.pick_serving(dice)).kill_host(dice)


def kill_broker(machines: Machines, dice: random.Random) -> None:
    """A broker's node is killed, and started again."""
    machines.restart_broker(machines.pick_serving(dice), dice.uniform(*AWAY_SECONDS))


def leader_of(machines: Machines, partition: int) -> Machine:
    """Returns the machine that leads a partition's stream."""
    text = machines.brokers.nodes[0].control("list_queues", "name", "leader", "--no-table-headers")
    for line in text.splitlines():
        name, _, leader = line.partition("\t")
        if name == topology.stream_of(partition):
            # (while one is chosen, the broker names none)
            for machine in machines.network.machines:
                if leader.endswith(f"@{machine.address}"):
                    return machine
    raise RuntimeError(f"the stream of partition {partition} has no leader")


def kill_leader(machines: Machines, dice: random.Random) -> None:
    """The broker's node that leads a stream is killed, and started again."""
    machine = leader_of(machines, dice.randrange(machines.partitions))
    machines.restart_broker(machine, dice.uniform(*AWAY_SECONDS))


def fill_disk(machines: Machines, dice: random.Random) -> None:
    machines.fill_disk(machines.pick_serving(dice))


def set_clock(machines: Machines, dice: random.Random) -> None:
    """The clock of a machine is set, and stays so."""
    machine = machines.pick_serving(dice)
    machines.clocks[machines.network.machines.index(machine)].set(dice.choice(CLOCKS))


def go_on_deposed(machines: Machines, dice: random.Random) -> None:
    """A bridge that was deaf for a while writes as if it were the active one."""
    haunt(machines, dice.randrange(machines.partitions))


def haunt(machines: Machines, partition: int) -> None:
    """Writes what a deposed bridge may write: a barrier of an old number, and records that come too late."""
    write_by_any(machines, lambda file: write_ghosts(file, machines.brokers.macs(partition)))


def write_by_any(machines: Machines, write: Callable[[str], object]) -> None:
    """Writes to a stream by the broker of a machine, or of the next one while that is gone."""
    for attempt in range(GHOST_TRIES):
        file = machines.brokers.url_file(NODE, machines.network.machines[attempt % len(machines.network.machines)])
        try:
            write(file)
            return
        except (*AWAY_FAULTS, RuntimeError):
            time.sleep(1.0)
    raise RuntimeError("the stream can't be written")


def forge_messages(machines: Machines, dice: random.Random) -> None:
    """Somebody without the cluster's key writes to a partition's stream, while requests are asked."""
    partition = dice.randrange(machines.partitions)
    macs, others = (machines.brokers.macs(one) for one in (partition, partition + 1))
    write_by_any(machines, lambda file: write_forgeries(file, macs, others))


def write_ghosts(file: str, macs: MessageMacs) -> None:
    """Writes what counts nowhere, and reads that it is there."""
    reader = Reader(file, macs)
    messages = reader.read()
    reader.close()
    barrier = last_barrier(messages)
    record = next_record(messages, STATUS)
    name = f"ghost.{uuid.uuid4().hex}"
    reader = Reader(file, macs)
    reader.write(Barrier(barrier.number, name, "m0"))
    reader.write(Records(name, 1, (record,)))
    late = Records(f"deposed.{uuid.uuid4().hex}", 1, (record,))
    reader.write(late)
    found = reader.read()
    reader.close()
    if late not in found:
        raise RuntimeError("what was written isn't there")


EVENTS: Mapping[str, Event] = {
    "power": Event(4, lose_power),
    "machine": Event(3, kill_machine),
    "two": Event(2, kill_two),
    "all": Event(1, kill_all),
    "replaced": Event(2, replace_machine),
    "wiped": Event(2, wipe_machine),
    "cut": Event(4, cut_machine),
    "deaf": Event(2, deafen_machine),
    "mute": Event(2, mute_machine),
    "lossy": Event(2, lose_packets),
    "slow": Event(2, slow_link),
    "hung": Event(2, hang_broker),
    "rolling": Event(1, roll_brokers),
    "alarm": Event(2, fill_broker),
    "unplugged": Event(2, unplug_machine),
    "parted": Event(3, part_machines),
    "blink": Event(2, blink_link),
    "stopped": Event(3, stop_machine),
    "node stopped": Event(2, stop_node),
    "node": Event(3, kill_node),
    "term": Event(2, end_node),
    "host": Event(2, kill_host),
    "broker": Event(2, kill_broker),
    "leader": Event(3, kill_leader),
    "disk": Event(2, fill_disk),
    "clock": Event(2, set_clock),
    "deposed": Event(3, go_on_deposed),
    "forged": Event(3, forge_messages),
    **{name: Event(2, does) for name, does in ACCIDENTS.items()},
}


def happen(machines: Machines, event: str, dice: random.Random) -> None:
    """Has an event happen, and waits until all brokers are back. A fault of its own is noted."""
    if machines.is_loud:
        print(f"{time.strftime('%H:%M:%S')} {event}", flush=True)
    try:
        EVENTS[event].does(machines, dice)
        machines.wait_for_brokers()
    except (OSError, RuntimeError, StopIteration, subprocess.SubprocessError) as fault:
        machines.faults.append(f"{event}: {fault!r}")
