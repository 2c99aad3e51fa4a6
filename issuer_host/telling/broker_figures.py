"""The figures of a broker's node: what its cluster has of copies, in Prometheus' text form."""
from collections.abc import Iterator, Mapping
from typing import Optional

from issuer_host.broker.redundancy import DISK, Redundancy, lacking_at

MEMORY = "memory"
# By name: what each says.
FIGURES = {
    "issuer_broker_looked_seconds": "When the broker's node was looked at, in seconds of Unix",
    "issuer_broker_runs": "1 if the broker's node of this machine runs",
    "issuer_broker_alone": "1 if it runs in a cluster of its own, or without the others",
    "issuer_brokers": "Nodes of the cluster, as the node of this machine knows them",
    "issuer_brokers_running": "Nodes of the cluster that run, as the node of this machine sees them",
    "issuer_machine_lacks": "Copies that the node of this machine lacks, and queues that no node by it waits for",
    "issuer_broker_alarm": "1 if the node of this machine has none left: publishers are held up",
    "issuer_queue_members": "Nodes that should have a copy of a queue or a stream",
    "issuer_queue_members_online": "Nodes that have a copy of a queue or a stream, and answer",
    "issuer_queue_line": "Nodes of machines that serve a queue or wait for it",
}
Labelled = Mapping[str, float]


def page_of(seen: Optional[Redundancy], now: float) -> str:
    """Returns the page. Of a node that doesn't run it says just that: what others see is on their pages."""
    found: dict[str, Labelled] = {
        "issuer_broker_looked_seconds": {"": now},
        "issuer_broker_runs": {"": bool(seen and seen.runs)},
    }
    if seen is not None and seen.runs:
        found |= of_cluster(seen)
    return "".join(line for name, values in found.items() for line in lines_of(name, values))


def of_cluster(seen: Redundancy) -> dict[str, Labelled]:
    own = {alarm.kind for alarm in seen.alarms if alarm.broker == seen.node}
    named = {labels(queue=group.name): group for group in seen.groups}
    return {
        "issuer_broker_alone": {"": seen.has_lost_all() or seen.is_of_its_own()},
        "issuer_brokers": {"": len(seen.brokers)},
        "issuer_brokers_running": {"": len(seen.running)},
        "issuer_machine_lacks": {"": lacking_at(seen)},
        "issuer_broker_alarm": {labels(kind=kind): kind in own for kind in (MEMORY, DISK)},
        "issuer_queue_members": {text: len(group.members) for text, group in named.items()},
        "issuer_queue_members_online": {text: len(group.online) for text, group in named.items()},
        "issuer_queue_line": {text: group.line for text, group in named.items() if group.line},
    }


def labels(**values: str) -> str:
    return "{" + ",".join(f'{name}="{value}"' for name, value in values.items()) + "}"


def lines_of(name: str, values: Labelled) -> Iterator[str]:
    yield f"# HELP {name} {FIGURES[name]}\n# TYPE {name} gauge\n"
    for text, value in values.items():
        yield f"{name}{text} {float(value):g}\n" if name != "issuer_broker_looked_seconds" else f"{name} {value:.3f}\n"
