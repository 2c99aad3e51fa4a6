"""The file that says what a node runs: NODE.json.

    {"machine": "m1", "broker_file": "/path/url-file", "cluster_key_file": "/path/key",
     "program": "/path/issuer (may be absent)", "rule": "/path/issuer-rule (may be absent)",
     "partitions": [{"number": 0, "configuration": "/path/0.json", "journal": "/path/journals/0", "callers": 1,
                     "orders": "/path/0.sock (may be absent)",
                     "last_run": "/path/last-run-0 (may be absent)"}],
     "figures": 0}
"""
import json
from typing import Any, NamedTuple, Optional

from issuer_host.facts.commands import CALLERS
from issuer_host.facts.refusal import Refusal
from issuer_host.replication.messages import NAME
from issuer_host.replication.rule_events import MOST_BEYOND

MOST_PARTITIONS = 1_000
# What a member may be, by its name; those that may be absent have a default.
OF_NODE = {
    "machine": str,
    "broker_file": str,
    "cluster_key_file": str,
    "program": str,
    "rule": str,
    "partitions": list,
    "figures": int,
    "window": int,
}
OF_PARTITION = {"number": int, "configuration": str, "journal": str, "callers": int, "orders": str, "last_run": str}
DEFAULTS: "dict[str, Any]" = {
    "program": None,
    "rule": "",
    "figures": 0,
    "window": 64,
    "callers": 1,
    "orders": "",
    "last_run": "",
}


class PartitionSettings(NamedTuple):
    """A partition of a node."""

    number: int
    configuration: str
    journal: str
    callers: int
    orders: str
    # The file outside the journals' folder that says which ones the last run had; none if it is empty.
    last_run: str


class NodeSettings(NamedTuple):
    """What a node runs."""

    machine: str
    broker_file: str
    # The file of the keys that the cluster's nodes share.
    cluster_key_file: str
    program: Optional[str]
    # Another program that decides by the rule than the proved one; none if it is empty.
    rule: str
    partitions: "tuple[PartitionSettings, ...]"
    # The port of the figures; 0 if there are none.
    figures: int
    # Unacknowledged requests of a partition at a time.
    window: int


def read(path: str) -> NodeSettings:
    """Returns what a file says. Refuses one that isn't as it has to be."""
    try:
        with open(path, encoding="utf-8") as text:
            said = json.load(text)
    except (OSError, ValueError) as fault:
        raise Refusal(f"{path} can't be read: {fault}") from fault
    node = members(path, "the node", said, OF_NODE)
    partitions = tuple(
        PartitionSettings(**members(path, "a partition", one, OF_PARTITION)) for one in node.pop("partitions")
    )
    found = NodeSettings(partitions=partitions, **node)
    check(path, found)
    return found


def members(path: str, what: str, said: object, kinds: "dict[str, type]") -> "dict[str, Any]":
    """Returns the members of an object, with the defaults of those that are absent."""
    if not isinstance(said, dict):
        raise Refusal(f"{path}: {what} is no object")
    unknown = sorted(set(said) - set(kinds))
    if unknown:
        raise Refusal(f"{path}: {what} has no member {unknown[0]}")
    found = {name: DEFAULTS[name] for name in kinds if name in DEFAULTS} | said
    for name, kind in kinds.items():
        if name not in found:
            raise Refusal(f"{path}: {what} lacks {name}")
        if type(found[name]) is not kind and (name in said or name not in DEFAULTS):
            raise Refusal(f"{path}: {name} of {what} is of another kind")
    return found


def check(path: str, settings: NodeSettings) -> None:
    """Refuses values that no node has."""
    numbers = [partition.number for partition in settings.partitions]
    if not NAME.fullmatch(settings.machine):
        raise Refusal(f"{path}: a machine's name is of letters, digits, `_`, `.` and `-`, 64 at most")
    if not numbers or len(numbers) > MOST_PARTITIONS or min(numbers) < 0 or len(set(numbers)) < len(numbers):
        raise Refusal(f"{path}: each partition has a number of its own, and there is one at least")
    if len({partition.journal for partition in settings.partitions}) < len(numbers):
        raise Refusal(f"{path}: two partitions have the same journals")
    for partition in settings.partitions:
        if not CALLERS.takes(str(partition.callers)):
            raise Refusal(f"{path}: the callers of partition {partition.number} are {CALLERS.rule}")
    if not 1 <= settings.window <= MOST_BEYOND or not 0 <= settings.figures < 1 << 16:
        raise Refusal(f"{path}: the window is 1 to {MOST_BEYOND}, and the port of the figures a port or 0")
