"""What a person has to do: rules over a state, each of which yields a line a cause, with its command.

Only what such a line is about is red. `Todo.is_now` says that somebody isn't answered, or won't be at any moment; all
else is to do soon: all are answered, and the next loss would change that.
"""
from collections.abc import Callable, Iterable, Iterator
from typing import NamedTuple

from issuer_host.status.state import ClusterState, Form, PartitionState, SourceState

# A source that doesn't answer is gone after so long.
SILENT_SECONDS = 2.0
# Another machine takes a partition over within this time.
TAKEOVER_SECONDS = 15.0
# A request that waits for longer is late, and records that don't count for longer stand still.
LATE_SECONDS = 5.0
UNCOUNTED_SECONDS = 60.0
# Less than so many bytes of a disk are few.
FEW_BYTES = 1e9


class Todo(NamedTuple):
    """Something to do. `about` has the names of sources and the numbers of partitions that are red."""

    is_now: bool
    what: str
    command: str
    about: "frozenset[object]"


Rule = Callable[[ClusterState], Iterable[Todo]]


def names(words: Iterable[object]) -> str:
    """Returns names in words: `a`, or `a and b`, or `a, b and c`."""
    found = [str(word) for word in words]
    return " and ".join([", ".join(found[:-1])] * (len(found) > 1) + found[-1:])


def numbers(partitions: Iterable[PartitionState]) -> str:
    found = [one.number for one in partitions]
    return f"partition{'s' * (len(found) > 1)} {names(found)}"


def on(source: str, form: Form, command: str) -> str:
    """Returns a command of a machine, as it is given from another one."""
    return f"ssh {source} {command}" if form is Form.NODE else command


def unit_of(source: SourceState) -> str:
    return "issuer-node" if source.form is Form.NODE else source.name


# The rules


def silent_sources(state: ClusterState) -> Iterator[Todo]:
    """A machine, a bridge or a gateway doesn't answer."""
    for source in state.sources:
        if source.silent <= SILENT_SECONDS:
            continue
        left = [one for one in state.partitions if source.name in one.silent and not is_served_elsewhere(one)]
        had = [one for one in state.partitions if source.name in one.silent]
        since = f"{source.name} hasn't answered for {source.silent:.0f} s"
        if source.form is Form.NODE:
            command = f"ssh {source.name} systemctl restart rabbitmq-server issuer-node"
        else:
            command = f"systemctl restart {source.name}"
        if left:
            yield Todo(True, f"{since}: nobody serves {numbers(left)}.", command, about(source.name, left))
        elif had:
            what = f"{since}: {numbers(had)} would stop if another one went."
            yield Todo(False, what, command, frozenset([source.name]))
        else:
            yield Todo(False, f"{since}: what it runs isn't known.", command, frozenset([source.name]))


def is_served_elsewhere(partition: PartitionState) -> bool:
    """Whether somebody serves a partition, or will in a moment."""
    has_followers = bool(partition.followers) and partition.unserved < TAKEOVER_SECONDS
    return bool(partition.serving) or has_followers or bool(partition.followers) and not is_asked(partition)


def is_asked(partition: PartitionState) -> bool:
    """Whether requests of a partition wait, as far as figures say."""
    return bool(partition.in_flight or partition.waiting)


def about(name: str, partitions: Iterable[PartitionState]) -> "frozenset[object]":
    return frozenset([name, *(one.number for one in partitions)])


def lost_connections(state: ClusterState) -> Iterator[Todo]:
    """A machine has no connection to its broker, or none has."""
    here = [source for source in state.sources if not source.silent and source.form in (Form.NODE, Form.BRIDGE)]
    lost = [source for source in here if source.unconnected > SILENT_SECONDS]
    if not lost:
        return
    if len(lost) == len(here):
        red = [*(source.name for source in lost), *(one.number for one in state.partitions)]
        runs = "two of the three brokers have to run" if state.has_nodes else "the broker has to run"
        what = f"Nobody has a connection to the broker, so nobody is answered: {runs}."
        yield Todo(True, what, on(lost[0].name, lost[0].form, "systemctl restart rabbitmq-server"), frozenset(red))
        return
    for source in lost:
        if source.unconnected > TAKEOVER_SECONDS:
            what = f"{source.name} has had no connection to its broker for {source.unconnected:.0f} s."
            command = on(source.name, source.form, "systemctl status rabbitmq-server")
            yield Todo(False, what, command, frozenset([source.name]))


def stopped_partitions(state: ClusterState) -> Iterator[Todo]:
    """A node stopped a partition until a person acts."""
    for partition in state.partitions:
        if not partition.stopped:
            continue
        where, is_now = names(partition.stopped), not partition.serving and not partition.followers
        what = f"{where} stopped partition {partition.number}, and "
        what += "nobody serves it." if is_now else "the others go on with it."
        command = f"ssh {partition.stopped[0]} journalctl -u issuer-node -n 20"
        red = [partition.number, *(() if is_now else partition.stopped)]
        why = f"It says: {partition.stop_reason}." if partition.stop_reason else "The log says why."
        yield Todo(is_now, f"{what} {why}", command, frozenset(red))


def unserved_partitions(state: ClusterState) -> Iterator[Todo]:
    """Requests wait, and nobody serves. (Who doesn't answer, or stopped, has a line of its own.)"""
    for partition in state.partitions:
        is_named = not partition.followers or partition.serving or partition.unserved < TAKEOVER_SECONDS
        if is_named or not is_asked(partition) and partition.form is not Form.GATEWAY:
            continue
        what = f"Nobody has served partition {partition.number} for {partition.unserved:.0f} s, and requests wait."
        yield Todo(True, what, log_of(partition), frozenset([partition.number]))


def log_of(partition: PartitionState) -> str:
    """Returns the command that prints the log of who has a partition."""
    name = partition.serving or next(iter(partition.followers), "")
    if partition.form is Form.NODE:
        return f"ssh {name} journalctl -u issuer-node -n 20"
    return f"journalctl -u {name} -n 20"


def full_disks(state: ClusterState) -> Iterator[Todo]:
    """The disk of the journals takes no record, or has little room."""
    for partition in state.partitions:
        name = partition.serving or next(iter(partition.followers), "")
        command = on(name, partition.form, f"df -h /var/lib/issuer/{partition.number}")
        number = frozenset([partition.number])
        if partition.is_refusing:
            yield Todo(True, f"The disk of partition {partition.number} takes no record: make room.", command, number)
        elif partition.free is not None and partition.free < FEW_BYTES:
            room = f"{partition.free / 1e6:.0f} MB"
            yield Todo(False, f"The disk of partition {partition.number} has {room} free: make room.", command, number)


def late_answers(state: ClusterState) -> Iterator[Todo]:
    """A request waits for long where somebody serves."""
    for partition in state.partitions:
        if partition.serving and partition.oldest > LATE_SECONDS and not partition.is_refusing:
            what = f"A request of partition {partition.number} has waited for {partition.oldest:.0f} s"
            what += f" at {partition.serving}: disk, host, broker, in this order."
            yield Todo(True, what, log_of(partition), frozenset([partition.number]))


def uncounted_records(state: ClusterState) -> Iterator[Todo]:
    """Records don't count: the broker has no majority, or a stream no leader."""
    stuck = [one for one in state.partitions if one.uncounted > UNCOUNTED_SECONDS and one.oldest <= LATE_SECONDS]
    if stuck:
        what = f"Records of {numbers(stuck)} don't count: two of the three brokers have to run."
        command = f"ssh {stuck[0].serving} rabbitmqctl cluster_status"
        yield Todo(True, what, command, frozenset(one.number for one in stuck))


def lost_brokers(state: ClusterState) -> Iterator[Todo]:
    """A broker is gone though its machine answers, members aren't online, or a broker takes no message."""
    seen = [(source, source.broker) for source in state.sources if source.broker is not None and not source.silent]
    alarmed = [(source, broker) for source, broker in seen if broker.alarms]
    if alarmed:
        source, broker = alarmed[0]
        what = f"The broker of {source.name} takes no message: its {names(broker.alarms)} is used up."
        command = on(source.name, source.form, "rabbitmqctl status")
        yield Todo(True, what, command, frozenset(each.name for each, _ in alarmed))
    alone = [source for source, broker in seen if broker.is_alone]
    if alone:
        what = (
            f"The broker of {names(source.name for source in alone)} runs without the others. Its log says what to do."
        )
        command = on(alone[0].name, alone[0].form, "journalctl -u issuer-rejoin -n 5")
        yield Todo(False, what, command, frozenset(source.name for source in alone))
        return
    if any(source.silent for source in state.sources):
        # (its broker went with it, and one cause has one line)
        return
    lacking = [(source, broker) for source, broker in seen if broker.running < broker.wanted]
    if lacking:
        source, broker = min(lacking, key=lambda one: one[1].running)
        what = f"{broker.running} of {broker.wanted} brokers run, as {source.name} sees it: the next loss stops all."
        command = on(source.name, source.form, "rabbitmqctl cluster_status")
        yield Todo(False, what, command, frozenset([source.name]))
        return
    for source, broker in seen:
        if broker.online < broker.members:
            what = f"{broker.members - broker.online} copies of queues and streams aren't online."
            command = on(source.name, source.form, "issuer-queues --check --streams")
            yield Todo(False, what, command, frozenset([source.name]))
            return


RULES: "tuple[Rule, ...]" = (
    silent_sources,
    lost_connections,
    stopped_partitions,
    unserved_partitions,
    full_disks,
    late_answers,
    uncounted_records,
    lost_brokers,
)


def todos_of(state: ClusterState) -> "list[Todo]":
    """Returns what to do, what is to be done now first."""
    found = [todo for rule in RULES for todo in rule(state)]
    return sorted(found, key=lambda todo: not todo.is_now)
