"""What a cluster of brokers has of copies: its nodes, the members of each queue and stream, and the line of each queue.

`rabbitmqctl` ends with 0 where nothing was done, and lists members that hold nothing. So all here is what a broker's
node itself sees: which nodes run, which members answer, and how many nodes of machines stand in each queue's line. A
copy of a stream answers if its process lives: of one that can't start a broker shows the offset of its last try.
"""
from collections.abc import Iterator, Mapping
from typing import Any, NamedTuple

from issuer_host.broker import topology
from issuer_host.broker.settings import Control

COPIES = topology.COPIES
QUEUE, STREAM, COORDINATOR = "queue", "stream", "coordinator"
# What chooses the leaders of all streams has members of its own.
OF_STREAMS = "the coordinator of streams"
DISK = "disk"
# A broker's node whose name nothing here knows.
ANY = "rabbit@ADDRESS"
# Printed by the broker as one JSON text. A node whose application doesn't run knows its cluster's nodes alone.
LOOK = """
Text = fun(Node) -> atom_to_binary(Node, utf8) end,
Texts = fun(Nodes) -> [Text(Node) || Node <- lists:usort(Nodes), is_atom(Node)] end,
Try = fun(Body, Else) -> try Body() catch _:_ -> Else end end,
Encode = fun(Value) -> iolist_to_binary(rabbit_json:encode(Value)) end,
Coordinator = rabbit_stream_coordinator,
{ok, {Peers, _}} = Try(fun() -> rabbit_peer_discovery_classic_config:list_nodes() end, {ok, {[], disc}}),
All = rabbit_mnesia:cluster_nodes(all),
Base = #{<<"node">> => Text(node()), <<"brokers">> => Texts(All), <<"peers">> => Texts(Peers)},
case rabbit:is_running() of
  false -> Encode(Base#{<<"runs">> => false});
  true ->
    Running = rabbit_mnesia:cluster_nodes(running),
    Asked = Try(fun() -> ra:members([{Coordinator, Node} || Node <- Running], 5000) end, none),
    Coordinators = case Asked of {ok, Servers, _} -> [Node || {_, Node} <- Servers]; _ -> [] end,
    Has = fun(Node) -> is_pid(erpc:call(Node, erlang, whereis, [Coordinator], 2000)) end,
    Lives = fun(Pid) -> is_pid(Pid) andalso erpc:call(node(Pid), erlang, is_process_alive, [Pid], 2000) end,
    Replicas = fun(Queue) ->
      #{name := Stream} = amqqueue:get_type_state(Queue),
      {ok, Members} = Coordinator:members(Stream),
      [Node || {Node, {Pid, _}} <- maps:to_list(Members), Try(fun() -> Lives(Pid) end, false)]
    end,
    Answering = fun(Queue) -> proplists:get_value(online, rabbit_amqqueue:info(Queue, [online])) end,
    Consumers = fun(Queue) ->
      Pids = [element(1, Consumer) || Consumer <- rabbit_amqqueue:consumers(Queue)],
      [Pid || Pid <- Pids, lists:member(node(Pid), Running)]
    end,
    Group = fun(Queue) ->
      {resource, Host, queue, Name} = amqqueue:get_name(Queue),
      Info = rabbit_amqqueue:info(Queue, [members]),
      {Kind, Online} = case amqqueue:get_type(Queue) of
        rabbit_stream_queue -> {<<"stream">>, Replicas};
        _ -> {<<"queue">>, Answering}
      end,
      #{<<"name">> => Name, <<"host">> => Host, <<"kind">> => Kind,
        <<"members">> => Texts(proplists:get_value(members, Info, [])),
        <<"online">> => Texts([Node || Node <- Try(fun() -> Online(Queue) end, []), lists:member(Node, Running)]),
        <<"line">> => Try(fun() -> length(Consumers(Queue)) end, 0),
        <<"by">> => Texts([node(Pid) || Pid <- Try(fun() -> Consumers(Queue) end, [])])}
    end,
    Queues = [Queue || Queue <- rabbit_amqqueue:list(), amqqueue:get_type(Queue) =/= rabbit_classic_queue],
    Encode(Base#{
      <<"runs">> => true,
      <<"running">> => Texts(Running),
      <<"unheard">> => Texts(rabbit_node_monitor:partitions()),
      <<"alarms">> => [[Text(Node), Text(Kind)] || {{resource_limit, Kind, Node}, _} <- rabbit_alarm:get_alarms()],
      <<"groups">> => [Group(Queue) || Queue <- Queues],
      <<"coordinators">> => Texts(Coordinators),
      <<"coordinating">> => Texts([Node || Node <- Coordinators, lists:member(Node, Running),
        Try(fun() -> Has(Node) end, false)])
    })
end.
"""


class Group(NamedTuple):
    """A queue or a stream: the nodes that have a copy by its list, those that answer, and who stands in its line."""

    name: str
    kind: str
    members: tuple[str, ...]
    online: tuple[str, ...]
    # The machines' nodes that serve the queue or wait for it; none of a stream.
    line: int
    # The brokers' nodes to which those are connected.
    by: tuple[str, ...] = ()

    def has(self, broker: str) -> bool:
        """Whether a node has a copy, and answers."""
        return broker in self.members and broker in self.online


class Alarm(NamedTuple):
    """A node that has no memory or no disk left, by its limits: all publishers of the cluster are held up."""

    broker: str
    kind: str


class Redundancy(NamedTuple):
    """What one node of a cluster sees of it."""

    node: str
    runs: bool
    # The nodes of its cluster, those that run, and those that its configuration names.
    brokers: tuple[str, ...]
    running: tuple[str, ...]
    peers: tuple[str, ...] = ()
    groups: tuple[Group, ...] = ()
    alarms: tuple[Alarm, ...] = ()
    # Nodes that it lost, and has not joined since.
    unheard: tuple[str, ...] = ()

    def others(self) -> tuple[str, ...]:
        """The other nodes, of its cluster or by its configuration."""
        return tuple(sorted({*self.brokers, *self.peers} - {self.node}))

    def has_lost_all(self) -> bool:
        """Whether it goes on without all others of its cluster."""
        others = set(self.brokers) - {self.node}
        return self.runs and bool(others) and others <= set(self.unheard)

    def is_of_its_own(self) -> bool:
        """Whether it runs in a cluster of its own, and should be in one with others."""
        return self.runs and self.brokers == (self.node,) and bool(self.others())


def redundancy_of(control: Control) -> Redundancy:
    """Asks a broker's node what it sees. Refuses if it can't be reached."""
    return read(control.evaluated(LOOK), control.host)


def read(said: Mapping[str, Any], host: str) -> Redundancy:
    """Returns what a node says, of a virtual host's queues."""
    found = [
        Group(row["name"], row["kind"], tuple(row["members"]), tuple(row["online"]), row["line"], tuple(row["by"]))
        for row in sorted(said.get("groups", []), key=lambda row: str(row["name"]))
        if row["host"] == host and row["name"].startswith("issuer.")
    ]
    if any(group.kind == STREAM for group in found):
        of_streams = tuple(said["coordinators"]), tuple(said["coordinating"])
        found.append(Group(OF_STREAMS, COORDINATOR, *of_streams, 0))
    alarms = tuple(Alarm(*row) for row in said.get("alarms", []))
    nodes = {name: tuple(said.get(name, [])) for name in ("brokers", "running", "peers", "unheard")}
    return Redundancy(said["node"], said["runs"], groups=tuple(found), alarms=alarms, **nodes)


def what_is_lost(seen: Redundancy, copies: int = COPIES) -> list[str]:
    """Returns a sentence for each copy that is missing, with the command that mends it."""
    if not seen.runs:
        return [f"the broker's node {seen.node} doesn't run: rabbitmqctl start_app"]
    return [*of_brokers(seen, copies), *of_groups(seen, copies), *of_alarms(seen)]


def of_brokers(seen: Redundancy, copies: int) -> Iterator[str]:
    for broker in seen.brokers:
        if broker not in seen.running:
            yield f"the broker's node {broker} doesn't run: start it; if its disk is gone, {replaces(broker, seen)}"
    if len(seen.brokers) < copies:
        yield (
            f"the cluster of {seen.node} has {len(seen.brokers)} of {copies} nodes:"
            f" for each that it lacks, {replaces(ANY, seen)}"
        )


def of_groups(seen: Redundancy, copies: int) -> Iterator[str]:
    for group in seen.groups:
        lacking = [broker for broker in seen.running if not group.has(broker)]
        for broker in lacking:
            what = "answers with no copy" if broker in group.members else "has no copy"
            yield f"{broker} {what} of {group.name}: {replaces(broker, seen)}"
        if not lacking and len(group.online) < min(copies, len(seen.brokers)):
            yield f"{len(group.online)} of {copies} copies of {group.name} answer: start the nodes that don't run"


def of_alarms(seen: Redundancy) -> Iterator[str]:
    for alarm in seen.alarms:
        mends = "make room on its disk" if alarm.kind == DISK else "see what fills its memory"
        yield f"{alarm.broker} has no {alarm.kind} left by its limit, and all publishers are held up: {mends}"


def replaces(broker: str, seen: Redundancy) -> str:
    """Returns the command that replaces a broker by one that lives: the one that sees it, or another that runs."""
    living = next((one for one in (seen.node, *seen.running) if one != broker), ANY)
    return f"issuer-replace {broker} --by {living}"


def of_lines(seen: Redundancy, partitions: int, copies: int = COPIES) -> list[str]:
    """Returns a sentence for each partition that fewer machines stand by for than there should be."""
    lines = {group.name: group.line for group in seen.groups if group.kind == QUEUE}
    return [
        f"{lines.get(queue, 0)} of {copies} machines stand in the line of {queue}: start the node of each, and give it"
        " copies of another's journals if it says so (issuer-node --copy)"
        for queue in map(topology.queue_of, range(partitions))
        if lines.get(queue, 0) < copies
    ]


def queues_of_partitions(seen: Redundancy) -> list[Group]:
    begin = topology.queue_of(0)[:-1]
    return [group for group in seen.groups if group.kind == QUEUE and group.name.startswith(begin)]


def partitions_of(seen: Redundancy) -> int:
    """Returns how many partitions have a queue."""
    return len(queues_of_partitions(seen))


def lacking_at(seen: Redundancy) -> int:
    """Returns what the machine of this node lacks: copies that it doesn't have, and lines in which it doesn't stand.

    A machine's node is connected to the broker's node beside it.
    """
    copies = sum(not group.has(seen.node) for group in seen.groups)
    return copies + sum(seen.node not in group.by for group in queues_of_partitions(seen))


def summary(seen: Redundancy, copies: int = COPIES) -> str:
    """Returns the least copies of each kind, in words: `brokers 3 of 3, queues 3 of 3, ..`."""
    parts = [f"brokers {len(seen.running)} of {copies}"]
    for kind, plural in ((QUEUE, "queues"), (STREAM, "streams"), (COORDINATOR, OF_STREAMS)):
        least = min((len(group.online) for group in seen.groups if group.kind == kind), default=None)
        if least is not None:
            parts.append(f"{plural} {least} of {copies}")
    return ", ".join(parts)
