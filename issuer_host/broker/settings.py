"""What a broker is set to, as its `rabbitmqctl` says it."""
import json
import re
import subprocess
from collections.abc import Mapping, Sequence
from typing import Any, NamedTuple

from issuer_host.facts.refusal import Refusal

COMMAND = "rabbitmqctl"
SECONDS = 300
# Statuses of rabbitmqctl that may be others when it is asked again: the node doesn't answer or isn't ready, an error
# inside it, and a fault that it says passes. Wrong words, wrong data and want of rights stay.
PASSING = (68, 69, 70, 75)
PIECES = re.compile(r'"\n\s*"')
# What a listener's protocol is called where clients connect, and the broker's own between its nodes.
PLAIN, ENCRYPTED, BETWEEN_NODES = "amqp", "amqp/ssl", "clustering"
# Printed by the broker as one JSON text: what no listing has.
SETTINGS = """
Encode = fun(Value) -> iolist_to_binary(rabbit_json:encode(Value)) end,
Options = application:get_env(rabbit, ssl_options, []),
Encode(#{
  <<"max_message_size">> => application:get_env(rabbit, max_message_size, 0),
  <<"verifies">> => proplists:get_value(verify, Options, verify_none) =:= verify_peer,
  <<"needs_certificate">> => proplists:get_value(fail_if_no_peer_cert, Options, false) =:= true,
  <<"listeners">> => [#{
    <<"protocol">> => atom_to_binary(Protocol, utf8),
    <<"address">> => list_to_binary(inet:ntoa(Address)),
    <<"port">> => Port
  } || {listener, _, Protocol, _, Address, Port, _} <- rabbit_networking:node_listeners(node())]
}).
"""


class PassingRefusal(Refusal):
    """Something that a broker didn't do, and that it may do when it is asked again."""


class Permissions(NamedTuple):
    """What a user may configure, write and read, as patterns of names."""

    configure: str
    write: str
    read: str


class TopicPermissions(NamedTuple):
    """By which routing keys of an exchange a user may publish, and bind, as patterns."""

    write: str
    read: str


class BrokerListener(NamedTuple):
    """Where the broker can be reached."""

    protocol: str
    address: str
    port: int


class Policy(NamedTuple):
    """What is set for queues whose names have a pattern."""

    name: str
    pattern: str
    definition: Mapping[str, object]


class Facts(NamedTuple):
    """What a virtual host of a broker is set to. Arguments and limits are by name."""

    users: list[str]
    permissions: dict[str, Permissions]
    # By user, then by topic exchange: by which routing keys it may publish, and bind.
    topic_permissions: dict[str, dict[str, TopicPermissions]]
    limits: dict[str, dict[str, int]]
    host_limits: dict[str, int]
    policies: list[Policy]
    operator_policies: list[Policy]
    queues: dict[str, dict[str, object]]
    # The type of each exchange.
    exchanges: dict[str, str]
    # By exchange: the queues that are bound to it, each with its routing key.
    bindings: dict[str, set[tuple[str, str]]]
    max_message_size: int
    verifies: bool
    needs_certificate: bool
    listeners: list[BrokerListener]


class Control:
    """Asks a broker by a command such as rabbitmqctl."""

    def __init__(self, command: str, host: str, more: Sequence[str] = ()) -> None:
        """`more` are words before all others, as those that name another node."""
        self.command = command
        self.host = host
        self.more = more

    def run(self, *words: str) -> str:
        try:
            command = [self.command, *self.more, "--quiet", *words]
            done = subprocess.run(command, capture_output=True, text=True, check=False, timeout=SECONDS)
        except OSError as fault:
            raise Refusal(f"{self.command} can't be run: {fault.strerror}; name it by --control") from fault
        except subprocess.TimeoutExpired as fault:
            said = f"{self.command} {words[0]} gave no answer in {SECONDS} s; is the broker up?"
            raise PassingRefusal(said) from fault
        if done.returncode:
            said = (done.stderr or done.stdout).strip().partition("\n")[0]
            refused = PassingRefusal if done.returncode in PASSING else Refusal
            raise refused(f"{self.command} {words[0]} ended with {done.returncode}: {said}. Run it as root")
        return done.stdout

    def rows(self, *words: str, is_of_host: bool = True) -> Any:
        of_host = ["--vhost", self.host] if is_of_host else []
        return json.loads(self.run(*words[:1], *of_host, "--formatter", "json", *words[1:]) or "[]")

    def evaluated(self, expression: str) -> Any:
        """Returns what an expression of the broker's own language comes to: one JSON text."""
        said = self.run("eval", expression).strip()
        # (it prints a binary as <<"..">>, with each quote and stroke in it escaped, and a long one in pieces)
        text = PIECES.sub("", said.removeprefix("<<").removesuffix(">>"))
        return json.loads(json.loads(text))

    def settings(self) -> Any:
        """Returns what the broker itself says by an expression."""
        return self.evaluated(SETTINGS)


def limits_of(value: Any) -> dict[str, int]:
    """Returns limits, which some listings have as a text."""
    found: dict[str, int] = json.loads(value) if isinstance(value, str) else dict(value or {})
    return found


def limits_of_host(rows: Any) -> dict[str, int]:
    """Returns a virtual host's limits: its listing is a list of one, or an object of another form."""
    row = rows[0] if isinstance(rows, list) and rows else rows
    return limits_of(row.get("limits", row.get("value"))) if row else {}


def policies_of(rows: Any) -> list[Policy]:
    found = []
    for row in rows:
        definition = row["definition"]
        held = json.loads(definition) if isinstance(definition, str) else definition
        found.append(Policy(row["name"], row["pattern"], held))
    return found


def arguments_of(value: object) -> dict[str, object]:
    """Returns a queue's arguments, which a listing has as triples or as an object."""
    if isinstance(value, dict):
        return value
    return {row[0]: row[-1] for row in value} if isinstance(value, list) else {}


def bindings_of(rows: Any) -> dict[str, set[tuple[str, str]]]:
    found: dict[str, set[tuple[str, str]]] = {}
    for row in rows:
        found.setdefault(row["source_name"], set()).add((row["destination_name"], row["routing_key"]))
    return found


def topic_permissions_of(rows: Any) -> dict[str, dict[str, TopicPermissions]]:
    found: dict[str, dict[str, TopicPermissions]] = {}
    for row in rows:
        found.setdefault(row["user"], {})[row["exchange"]] = TopicPermissions(row["write"], row["read"])
    return found


def facts_of(control: Control) -> Facts:
    """Asks for all facts: each question takes a second or two."""
    settings = control.settings()
    permissions = control.rows("list_permissions")
    limits = control.rows("list_user_limits", "--global", is_of_host=False)
    return Facts(
        [row["user"] for row in control.rows("list_users", is_of_host=False)],
        {row["user"]: Permissions(row["configure"], row["write"], row["read"]) for row in permissions},
        topic_permissions_of(control.rows("list_topic_permissions")),
        {row["user"]: limits_of(row["limits"]) for row in limits},
        limits_of_host(control.rows("list_vhost_limits")),
        policies_of(control.rows("list_policies")),
        policies_of(control.rows("list_operator_policies")),
        {row["name"]: arguments_of(row["arguments"]) for row in control.rows("list_queues", "name", "arguments")},
        {row["name"]: row["type"] for row in control.rows("list_exchanges", "name", "type")},
        bindings_of(control.rows("list_bindings", "source_name", "destination_name", "routing_key")),
        settings["max_message_size"],
        settings["verifies"],
        settings["needs_certificate"],
        [BrokerListener(row["protocol"], row["address"], row["port"]) for row in settings["listeners"]],
    )
