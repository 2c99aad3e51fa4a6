"""How a broker has to be set, and what of that is missing.

Each side has a user of its own that may do what it does and nothing else. Users that are neither the operator's nor the
bridges' are publishers.
"""
import re
from collections.abc import Iterator, Mapping, Sequence
from typing import NamedTuple

from issuer_host.broker import topology
from issuer_host.broker.settings import BETWEEN_NODES, ENCRYPTED, Facts, PLAIN, Permissions, Policy, TopicPermissions

GUEST = "guest"
EVERY = "^issuer[.].*"
OPERATOR_MAY = Permissions(EVERY, EVERY, EVERY)
BRIDGE_MAY = Permissions("^$", "^issuer[.]replies$", "^issuer[.]requests[.][0-9]+$")
# Of nodes on several machines, which have streams.
NODE_MAY = Permissions("^$", "^issuer[.](replies|records)$", "^issuer[.]requests[.][0-9]+([.]records)?$")
REPLY_QUEUES = "^issuer[.]reply[.]"
# The numbers of a publisher's reply queues: below `topology.REPLY_QUEUES`.
NUMBERS = "([0-9]|[1-5][0-9]|6[0-3])"
# What a publisher has of the broker, and all of them together.
PUBLISHER_LIMITS = {"max-connections": 64, "max-channels": 64}
HOST_LIMITS = {"max-queues": 1024}
# A publisher declares its reply queue by itself: this holds whatever it declares.
REPLY_POLICY = Policy(
    "issuer-replies",
    REPLY_QUEUES,
    {
        "expires": topology.REPLY_EXPIRES,
        "max-length": topology.QUEUE_LENGTH,
        "max-length-bytes": topology.QUEUE_LENGTH * topology.MESSAGE_BYTES,
    },
)
LOOPBACK = ("127.0.0.1", "::1")
QUEUES = re.compile(r"issuer[.](requests[.][0-9]+([.]records)?|dead|reply[.].*)")


# What an exchange of answers needs that an earlier version declared.
ANEW = "end publishers and bridges, and run deploy/queues --replies-anew"


class Expected(NamedTuple):
    """What a broker is set for."""

    partitions: int
    operator: str
    bridge: str
    host: str
    # Whether there are streams, for nodes on several machines.
    streams: bool = False


def what_is_missing(facts: Facts, expected: Expected) -> list[str]:
    """Returns a sentence for each thing that isn't as it has to be, with what mends it."""
    found = [*of_users(facts, expected), *of_publishers(facts, expected), *of_policies(facts, expected.host)]
    return [*found, *of_queues(facts, expected), *of_bindings(facts, expected), *of_wires(facts)]


def own_queues(user: str) -> str:
    """Returns the pattern of a publisher's reply queues, without their first word."""
    return f"reply[.]{re.escape(user).replace(chr(92) + '-', '-').replace(chr(92) + '.', '[.]')}[.]{NUMBERS}"


def publisher_may(user: str) -> Permissions:
    """Returns what a publisher may: ask, and declare and read the reply queues of its own name, which are few."""
    own = own_queues(user)
    return Permissions(f"^issuer[.]{own}$", f"^issuer[.](requests|{own})$", f"^issuer[.](replies|{own})$")


def publisher_binds(user: str) -> TopicPermissions:
    """Returns by which names a publisher may bind to the answers: by those of its own reply queues."""
    return TopicPermissions("^$", f"^issuer[.]{own_queues(user)}$")


def of_users(facts: Facts, expected: Expected) -> Iterator[str]:
    if GUEST in facts.users:
        yield "the user guest is there, whose password all know: rabbitmqctl delete_user guest"
    wanted = {expected.operator: OPERATOR_MAY, expected.bridge: NODE_MAY if expected.streams else BRIDGE_MAY}
    for user, may in wanted.items():
        if user not in facts.users:
            command = set_permissions(user, may, expected.host)
            yield f"there is no user {user}: rabbitmqctl add_user {user}; then {command}"
    for user in facts.users:
        may = wanted.get(user) or publisher_may(user)
        has = facts.permissions.get(user)
        # (a user without permissions may do nothing)
        if user != GUEST and has != may and (has is not None or user in wanted):
            yield f"the user {user} may do something else than it does: {set_permissions(user, may, expected.host)}"


def set_permissions(user: str, may: Permissions, host: str) -> str:
    """Returns the command that gives permissions."""
    return f"rabbitmqctl set_permissions -p {host} {user} '{may.configure}' '{may.write}' '{may.read}'"


def of_publishers(facts: Facts, expected: Expected) -> Iterator[str]:
    """Nobody's share is without a limit."""
    others = (GUEST, expected.operator, expected.bridge)
    for user in sorted(user for user in facts.permissions if user not in others):
        binds = publisher_binds(user)
        if facts.topic_permissions.get(user, {}).get(topology.REPLIES) != binds:
            words = f"-p {expected.host} {user} {topology.REPLIES} '{binds.write}' '{binds.read}'"
            yield f"the publisher {user} may read the answers of others: rabbitmqctl set_topic_permissions {words}"
        lacks = lacking(PUBLISHER_LIMITS, facts.limits.get(user, {}))
        if lacks:
            command = f"rabbitmqctl set_user_limits {user} '{text_of(lacks)}'"
            yield f"the publisher {user} has no limit of {names(lacks)}: {command}"
    lacks = lacking(HOST_LIMITS, facts.host_limits)
    if lacks:
        command = f"rabbitmqctl set_vhost_limits -p {expected.host} '{text_of(lacks)}'"
        yield f"the virtual host has no limit of {names(lacks)}: {command}"


def lacking(wanted: Mapping[str, int], has: Mapping[str, int]) -> dict[str, int]:
    """Returns those limits that aren't set. Whatever is set is somebody's choice; below zero it is none."""
    return {name: most for name, most in wanted.items() if has.get(name, -1) < 0}


def names(limits: Mapping[str, int]) -> str:
    return " and ".join(limits)


def text_of(values: Mapping[str, object]) -> str:
    return "{" + ",".join(f'"{name}":{value}' for name, value in values.items()) + "}"


def of_policies(facts: Facts, host: str) -> Iterator[str]:
    """Policies change what queues were declared with: none may but that of the reply queues."""
    for policy in facts.policies:
        touched = [queue for queue in (topology.DEAD, topology.queue_of(0)) if re.search(policy.pattern, queue)]
        if touched:
            yield f"the policy {policy.name} is for {touched[0]} too, and may drop what waits there: change its pattern"
    is_set = any(
        policy.pattern == REPLY_POLICY.pattern and not lacking_of(policy) for policy in facts.operator_policies
    )
    if not is_set:
        words = f"{REPLY_POLICY.name} '{REPLY_POLICY.pattern}' '{text_of(REPLY_POLICY.definition)}'"
        command = f"rabbitmqctl set_operator_policy -p {host} --apply-to queues {words}"
        yield f"no operator policy limits the reply queues that publishers declare: {command}"


def lacking_of(policy: Policy) -> list[str]:
    """Returns the limits of reply queues that a policy lacks, or sets higher."""
    return [name for name, most in REPLY_POLICY.definition.items() if not is_within(policy.definition.get(name), most)]


def is_within(value: object, most: object) -> bool:
    return isinstance(value, int) and isinstance(most, int) and 0 <= value <= most


def of_queues(facts: Facts, expected: Expected) -> Iterator[str]:
    """The queues are there, with the arguments that they are declared with."""
    wanted = {topology.queue_of(partition): topology.PARTITION_ARGUMENTS for partition in range(expected.partitions)}
    wanted[topology.DEAD] = topology.DEAD_ARGUMENTS
    for queue, arguments in wanted.items():
        if queue not in facts.queues:
            yield f"there is no queue {queue}: run deploy/queues"
        elif facts.queues[queue] != arguments:
            yield f"the queue {queue} has other arguments: delete it while it is empty, and run deploy/queues"
    yield from of_streams(facts, expected)
    for queue in sorted(facts.queues):
        if queue.startswith("issuer.") and queue not in wanted and not QUEUES.fullmatch(queue):
            yield f"nobody here declares the queue {queue}: look who reads it"


def of_streams(facts: Facts, expected: Expected) -> Iterator[str]:
    """The streams are there, each with as many copies as it has to have. How much it keeps is somebody's choice."""
    for partition in range(expected.partitions if expected.streams else 0):
        stream, sizes = topology.stream_of(partition), ("x-max-length-bytes",)
        if stream not in facts.queues:
            yield f"there is no stream {stream}: run deploy/queues --streams"
            continue
        has = {name: value for name, value in facts.queues[stream].items() if name not in sizes}
        if has != {name: value for name, value in topology.stream_arguments().items() if name not in sizes}:
            yield f"the stream {stream} has other arguments, and it can't be declared anew without its records"
        for queue in (stream, topology.queue_of(partition)):
            if (queue, queue) not in facts.bindings.get(topology.RECORDS, set()):
                yield f"the queue {queue} isn't bound to {topology.RECORDS} by its name: run deploy/queues --streams"


def of_bindings(facts: Facts, expected: Expected) -> Iterator[str]:
    """Each partition's queue gets its requests, and no other queue gets a copy of any."""
    kind = facts.exchanges.get(topology.REPLIES)
    if kind not in (None, topology.REPLIES_TYPE):
        yield f"the exchange {topology.REPLIES} is of type {kind}: {ANEW}"
    keys = {(topology.queue_of(partition), str(partition)) for partition in range(expected.partitions)}
    bound = facts.bindings.get(topology.REQUESTS, set())
    for queue, key in sorted(keys - bound):
        if queue in facts.queues:
            yield f"the queue {queue} isn't bound to {topology.REQUESTS} by {key}: run deploy/queues"
    for queue, key in sorted(bound):
        if queue != f"{topology.REQUESTS}.{key}":
            yield f"the queue {queue} gets a copy of partition {key}'s requests: look who reads it, and unbind it"
    for queue, key in sorted(facts.bindings.get(topology.RECORDS, set())):
        if queue != key:
            yield f"the queue {queue} gets a copy of the records of {key}: look who reads it, and unbind it"
    for queue, key in sorted(facts.bindings.get(topology.REPLIES, set())):
        if queue != key:
            yield f"the queue {queue} gets a copy of the answers to {key}: look who reads it, and unbind it"


def of_wires(facts: Facts) -> Iterator[str]:
    """Whoever connects from elsewhere is encrypted and shows a certificate, and no message is long."""
    if not 0 < facts.max_message_size <= topology.MAX_MESSAGE:
        has = f"messages may have {facts.max_message_size} bytes"
        yield f"{has}: max_message_size = {topology.MAX_MESSAGE} in rabbitmq.conf"
    for listener in facts.listeners:
        where = f"{listener.address} port {listener.port}"
        is_near = listener.address in LOOPBACK
        if listener.protocol == PLAIN and not is_near:
            yield f"clients may connect in clear at {where}: set listeners.tcp to 127.0.0.1, or to none beside TLS"
        elif listener.protocol == BETWEEN_NODES and not is_near:
            yield f"other nodes may connect at {where}: bind it by inet_dist_use_interface"
        elif listener.protocol not in (PLAIN, ENCRYPTED, BETWEEN_NODES) and not is_near:
            yield f"the plugin of {listener.protocol} listens at {where}: bind it to 127.0.0.1"
    if any(listener.protocol == ENCRYPTED for listener in facts.listeners):
        yield from of_certificates(facts)


def of_certificates(facts: Facts) -> Iterator[str]:
    if not facts.verifies:
        yield "TLS checks no client's certificate: ssl_options.verify = verify_peer in rabbitmq.conf"
    if not facts.needs_certificate:
        yield "TLS takes clients without a certificate: ssl_options.fail_if_no_peer_cert = true in rabbitmq.conf"


def of_broker_file(text: str, mode: int) -> Sequence[str]:
    """Returns what is wrong of the file that names the broker."""
    found = []
    if mode & 0o077:
        found.append("others can read the broker file: chmod 600")
    if f"//{GUEST}:" in text:
        found.append("the broker file names the user guest: give it the user of whoever reads it")
    return found
