"""What happens to a farm in a round of deploy/chaos."""
import random
import time
from collections.abc import Callable, Mapping
from typing import NamedTuple

import pika

from issuer_host.broker import topology as names
from trials.bridges.accidents import damage_beside, pull_disk, restore_unsealed
from trials.bridges.farm import Farm, PARTITIONS
from trials.bridges.hostile import publish_deaf, publish_hostile
from trials.bridges.managed import KILL, STOP, TERMINATE, signal_to
from trials.bridges.publisher import Publisher

# The first partition's disk, which a small one stands for where one can be mounted.
DISK = "disk"
BROKER_SECONDS = 0.5
# Standbys are restarted first after an upgrade, and have so long to be there.
STANDBY_SECONDS = 1.0
# A broker that was just restarted may refuse for a while.
TRIES = 60
AGAIN_SECONDS = 0.5


class Event(NamedTuple):
    """How often it comes, in a hundred, and what is done."""

    weight: int
    does: Callable[[Farm, random.Random], object]


def kill_bridge(farm: Farm, dice: random.Random) -> None:
    farm.pick(dice, True).signal(KILL)


def kill_standby(farm: Farm, dice: random.Random) -> None:
    farm.pick(dice, False).signal(KILL)


def kill_host(farm: Farm, dice: random.Random) -> None:
    host = farm.pick(dice, True).host()
    if host:
        signal_to(host, KILL)


def kill_both(farm: Farm, dice: random.Random) -> None:
    bridge = farm.pick(dice, True)
    host = bridge.host()
    if host:
        signal_to(host, KILL)
    bridge.signal(KILL)


def end_bridge(farm: Farm, dice: random.Random) -> None:
    farm.pick(dice, True).signal(TERMINATE)


def stop_bridge(farm: Farm, dice: random.Random) -> None:
    """A bridge hangs: its watchdog ends it."""
    farm.pick(dice, True).signal(STOP)


def hang_host(farm: Farm, dice: random.Random) -> None:
    """A host hangs: its bridge ends it."""
    host = farm.pick(dice, True).host()
    if host:
        signal_to(host, STOP)


def restart_broker(farm: Farm, dice: random.Random) -> None:
    farm.broker.kill()
    time.sleep(dice.uniform(0.0, BROKER_SECONDS))
    farm.broker.start()


def fill_disk(farm: Farm, _: random.Random) -> None:
    farm.fill_disk()


def insist(farm: Farm, does: Callable[[], object]) -> None:
    """Does something at the broker, as soon as it is there."""
    for _ in range(TRIES):
        farm.broker.wait()
        try:
            does()
            return
        except (pika.exceptions.AMQPError, OSError):
            time.sleep(AGAIN_SECONDS)
    raise RuntimeError("the broker refuses")


def be_deaf(farm: Farm, dice: random.Random) -> None:
    partition = dice.randrange(PARTITIONS)
    insist(farm, lambda: publish_deaf(farm.broker, partition))


def be_hostile(farm: Farm, _: random.Random) -> None:
    insist(farm, lambda: publish_hostile(farm.broker, PARTITIONS))


def delete_queue(farm: Farm, dice: random.Random) -> None:
    """A partition's queue is deleted with what is in it, and declared again."""
    queue = names.queue_of(dice.randrange(PARTITIONS))

    def delete() -> None:
        with Publisher(farm.broker) as publisher:
            publisher.channel.queue_delete(queue)

    insist(farm, delete)
    insist(farm, farm.declare)


def upgrade(farm: Farm, dice: random.Random) -> None:
    """Another version of the package is put in place while a host ends, and all bridges are restarted by it."""
    kill_host(farm, dice)
    farm.installed.upgrade()
    for number in (1, 0):
        for bridge in farm.bridges:
            if bridge.number == number:
                bridge.signal(TERMINATE)
        time.sleep(STANDBY_SECONDS)


EVENTS: Mapping[str, Event] = {
    "bridge": Event(20, kill_bridge),
    "standby": Event(6, kill_standby),
    "host": Event(20, kill_host),
    "both": Event(18, kill_both),
    "term": Event(8, end_bridge),
    DISK: Event(4, fill_disk),
    "stop": Event(4, stop_bridge),
    "broker": Event(4, restart_broker),
    "deaf": Event(4, be_deaf),
    "hostile": Event(4, be_hostile),
    "queue": Event(3, delete_queue),
    "upgrade": Event(3, upgrade),
    "hang": Event(2, hang_host),
    "unsealed": Event(3, restore_unsealed),
    "beside": Event(4, damage_beside),
    "pulled": Event(3, pull_disk),
}


def happen(farm: Farm, event: str, dice: random.Random) -> None:
    """Has an event happen. What it is done to may end by itself at the same time; a fault of its own is noted."""
    if farm.is_loud:
        print(f"{time.strftime('%H:%M:%S')} {event}", flush=True)
    try:
        EVENTS[event].does(farm, dice)
    except (OSError, RuntimeError) as fault:
        farm.faults.append(f"{event}: {fault!r}")
