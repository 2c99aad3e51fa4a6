"""How a machine is replaced: what there is, and the next step by that alone.

Nothing here runs a command. Each step is chosen by what a broker's node that lives sees, by what the new one sees, and
by the journals that are there. So whoever begins again after any failure goes on where it ended.
"""
import enum
from typing import NamedTuple, Optional

from issuer_host.broker.redundancy import COPIES, Group, QUEUE, Redundancy, STREAM, of_lines, what_is_lost
from issuer_host.facts.refusal import Refusal

# A copy that was just made answers after some seconds, and the coordinator of streams grows by itself twice a minute.
SETTLING_SECONDS, GROWING_SECONDS = 20.0, 120.0
# From a node's start until it has read what it missed, and stands in line.
FOLLOWING_SECONDS = 120.0


class Does(enum.Enum):
    """What a step does, in words for whoever looks on."""

    START_BROKER = "start the broker of the new machine"
    FORGET = "take the old broker out of the cluster"
    STOP = "stop the new broker, which stands alone"
    JOIN = "have the new broker join the cluster, without what it held alone"
    START = "start the new broker in the cluster"
    GROW = "give the new broker copies of"
    GROW_ANEW = "give the new broker anew the copies of"
    REPLICATE = "give the new broker copies of the streams"
    REPLICATE_ANEW = "give the new broker anew the copies of the streams"
    COORDINATE_ANEW = "take the old member out of the coordinator of streams, which adds the new one by itself"
    COPY = "copy another machine's journals of the partitions"
    START_NODE = "start the node of the new machine"
    WAIT = "wait"


class Step(NamedTuple):
    """What is done next, and to which queues, streams or partitions."""

    does: Does
    subjects: tuple[str, ...] = ()

    def __str__(self) -> str:
        return " ".join([self.does.value, ", ".join(self.subjects)]).strip()


class Replaced(NamedTuple):
    """What there is."""

    # The broker's node of the machine that is replaced.
    broker: str
    # What a node that lives sees, and the new one; none while that doesn't answer.
    living: Redundancy
    own: Optional[Redundancy]
    # How often the new broker was started here.
    starts: int
    # How long nothing was done but to wait.
    waited: float
    partitions: int
    # Of the new machine, where it is this one: the partitions that lack journals.
    lacking: tuple[int, ...] = ()
    is_here: bool = False
    is_node_started: bool = False


def next_step(state: Replaced) -> Optional[Step]:
    """Returns what to do next; nothing if all is there. Refuses what no step mends."""
    refuse_wrong_guide(state)
    step = of_broker(state)
    if step is None:
        step = of_copies(state) or of_machine(state)
    return step


def refuse_wrong_guide(state: Replaced) -> None:
    """Refuses a node that can't tell: no other may be removed on its word."""
    living = state.living
    if living.node == state.broker:
        raise Refusal(f"{state.broker} is the one to replace: name another one by --by")
    if not living.runs or 2 * len(living.running) <= len(living.brokers):
        raise Refusal(f"{living.node} doesn't run with most of its cluster: name one that does by --by")
    if not living.groups:
        raise Refusal(f"{living.node} has no queue of issuer: name one that has by --by")
    others = [one for one in living.brokers if one != state.broker]
    if len(others) >= COPIES:
        raise Refusal(f"the cluster has {len(others)} nodes beside {state.broker}: it isn't one of them")


def of_broker(state: Replaced) -> Optional[Step]:
    """Returns the next step until the new broker runs in the cluster."""
    living, own = state.living, state.own
    is_member = state.broker in living.brokers
    if is_member and state.broker in living.running:
        return None
    if own is None:
        # (one that started, and ended since the others took it for a member, comes up once they forgot it)
        return Step(Does.FORGET) if is_member and state.starts else Step(Does.START_BROKER)
    knows = living.node in own.brokers
    if not own.runs:
        if is_member:
            return Step(Does.START) if knows else Step(Does.FORGET)
        return Step(Does.JOIN)
    if not knows or not is_member:
        refuse_full(own)
        return Step(Does.STOP)
    return wait(state, SETTLING_SECONDS, f"{state.broker} runs, and {living.node} doesn't hear it: see the network")


def refuse_full(own: Redundancy) -> None:
    """Refuses a broker that stands alone and has queues: what it holds would be deleted."""
    names = [group.name for group in own.groups]
    if names:
        raise Refusal(
            f"{own.node} isn't new: it stands alone with {', '.join(names[:3])}. If it is the one to replace, end it,"
            " and delete its data"
        )


def wait(state: Replaced, seconds: float, why: str) -> Step:
    """Waits for what comes by itself, and refuses if it doesn't."""
    if state.waited > seconds:
        raise Refusal(why)
    return Step(Does.WAIT)


def of_copies(state: Replaced) -> Optional[Step]:
    """Returns the next step until each queue and each stream has a copy on the new broker."""
    lacking = [group for group in state.living.groups if not group.has(state.broker)]
    wanted: dict[Does, list[str]] = {}
    for group in lacking:
        does = of_copy(state, group)
        if does is not None:
            wanted.setdefault(does, []).append(group.name)
    for does, names in wanted.items():
        return Step(does, () if does is Does.COORDINATE_ANEW else tuple(names))
    return wait(state, GROWING_SECONDS, "; ".join(what_is_lost(state.living))) if lacking else None


def of_copy(state: Replaced, group: Group) -> Optional[Does]:
    """Returns what gives the new broker a copy; nothing while it may come by itself."""
    is_listed = state.broker in group.members
    if is_listed and state.waited < SETTLING_SECONDS:
        return None
    if group.kind == QUEUE:
        return Does.GROW_ANEW if is_listed else Does.GROW
    if group.kind == STREAM:
        # (what is made anew is deleted before: two others have to have it)
        are_others = len(set(group.online) - {state.broker}) >= COPIES - 1
        return Does.REPLICATE if not is_listed else Does.REPLICATE_ANEW if are_others else None
    # (it adds nodes that it doesn't list, and looks twice a minute: one that was away for less stays listed)
    return Does.COORDINATE_ANEW if is_listed else None


def of_machine(state: Replaced) -> Optional[Step]:
    """Returns the next step until the new machine has its journals, and stands in each partition's line."""
    if state.lacking:
        return Step(Does.COPY, tuple(map(str, state.lacking)))
    short = of_lines(state.living, state.partitions)
    if not short:
        return None
    if state.is_here and not state.is_node_started:
        return Step(Does.START_NODE)
    return wait(state, FOLLOWING_SECONDS if state.is_node_started else 0.0, "; ".join(short))
