"""Replaces a machine of several: its broker, its copies of queues and streams, its journals and its node.

usage: replace BROKER --by BROKER [--control COMMAND] [--vhost NAME] [--start-broker COMMAND]
               [--node-file NODE.json [--copies PATTERN] [--user NAME] [--start-node COMMAND]]

BROKER is the broker's node of the machine that is replaced, under the name and address that it had, as
rabbit@10.0.0.3; --by names one that lives. It works on the machine that lives or on the new one, as root, since it asks
both by rabbitmqctl. The old machine is off, or gone. It prints each step, checks it by what is there, and ends with

    three of three: brokers 3 of 3, queues 3 of 3, streams 3 of 3, the coordinator of streams 3 of 3, journals 3 of 3

or with what is missing, the command that mends it, and status 1. If a step at a broker fails for a cause that may pass,
it says so and tries it again, five times in all. It does no step more often that ends well and changes nothing. After
any failure run it again: it goes on.

Journals are there on a machine whose node serves or waits in the line of each partition's queue.

A broker that stands alone with queues of its own isn't a new one: it is left as it is.

--control       the command that controls the broker (rabbitmqctl); it is given --node BROKER
--vhost         the virtual host (/)
--start-broker  what starts the broker of the new machine, on that machine, as `systemctl start rabbitmq-server`
--node-file     on the new machine: the file that says which partitions it has
--copies        where another machine's journals lie, as they were copied here, with {} for the partition's number, as
                /var/lib/issuer-copies/{}/journal
--user          the user who has the journals (issuer); nobody else than this one if it is empty
--start-node    what starts the new machine's node, as `systemctl start issuer-node`
"""
import argparse
import os
import shlex
import shutil
import subprocess
import time
from collections.abc import Callable, Mapping, Sequence
from typing import NamedTuple, Optional

from issuer_host.broker.redundancy import COPIES, Redundancy, partitions_of, redundancy_of, summary, what_is_lost
from issuer_host.broker.settings import COMMAND, Control, PassingRefusal
from issuer_host.facts.journals import POSITION, shards_of_files
from issuer_host.facts.paths import HOME
from issuer_host.facts.refusal import Refusal, tell
from issuer_host.replication import node_file
from issuer_host.replication.node_file import PartitionSettings
from issuer_host.replication.replacement import Does, Replaced, Step, next_step

NAME = "replace"
NODE = os.path.join(HOME, "deploy", "node")
# By the name of a queue, in the broker's own language.
ADD_MEMBER = """rabbit_quorum_queue:add_member(<<"{host}">>, Queue, '{broker}', 60000)"""
DELETE_MEMBER = """rabbit_quorum_queue:delete_member(<<"{host}">>, Queue, '{broker}')"""
ADD_REPLICA = """rabbit_stream_queue:add_replica(<<"{host}">>, Queue, '{broker}')"""
# A replica that is deleted leaves its files, and one that is added over files of another history never starts: once the
# coordinator of streams has it no more, they are deleted too.
DELETE_REPLICA = """(fun() ->
  {{ok, Found}} = rabbit_amqqueue:lookup(rabbit_misc:r(<<"{host}">>, queue, Queue)),
  #{{name := Stream}} = amqqueue:get_type_state(Found),
  ok = rabbit_stream_queue:delete_replica(<<"{host}">>, Queue, '{broker}'),
  IsMember = fun() ->
    {{ok, Members}} = rabbit_stream_coordinator:members(Stream),
    maps:is_key('{broker}', Members)
  end,
  Waited = lists:dropwhile(fun(_) -> IsMember() andalso timer:sleep(200) =:= ok end, lists:seq(1, 50)),
  false = Waited =:= [],
  {{ok, Folder}} = erpc:call('{broker}', application, get_env, [osiris, data_dir]),
  erpc:call('{broker}', file, del_dir_r, [filename:join(Folder, Stream)])
end)()"""
LOOK_SECONDS, BROKER_SECONDS, ALL_SECONDS = 2.0, 120.0, 1_800.0
# How often a step is tried that fails for a cause that may pass, and how long after it failed.
TRIES, AGAIN_SECONDS = 5, 5.0


class CommandEnded(Refusal):
    """A command that ended with another status than 0."""


class ReplaceOptions(NamedTuple):
    """The words of the command."""

    broker: str
    by: str
    control: str
    vhost: str
    start_broker: str
    node_file: str
    copies: str
    user: str
    start_node: str


def options_of(words: Sequence[str]) -> ReplaceOptions:
    parser = argparse.ArgumentParser(usage=__doc__)
    parser.add_argument("broker")
    parser.add_argument("--by", required=True)
    parser.add_argument("--control", default=COMMAND)
    parser.add_argument("--vhost", default="/")
    parser.add_argument("--start-broker", default="")
    parser.add_argument("--node-file", default="")
    parser.add_argument("--copies", default="")
    parser.add_argument("--user", default="issuer")
    parser.add_argument("--start-node", default="")
    return ReplaceOptions(**vars(parser.parse_args(words)))


class NewJournals:
    """The journals of the new machine, where that is this one."""

    def __init__(self, options: ReplaceOptions) -> None:
        self.options = options
        found = node_file.read(options.node_file).partitions if options.node_file else ()
        self.partitions: Mapping[int, PartitionSettings] = {one.number: one for one in found}

    def lacking(self) -> tuple[int, ...]:
        """Returns the partitions that have neither journals nor a position here."""
        return tuple(number for number, one in sorted(self.partitions.items()) if not are_there(one.journal))

    def copy_all(self, numbers: Sequence[str]) -> None:
        for number in numbers:
            self.copy(int(number))

    def copy(self, number: int) -> None:
        """Copies another machine's journals of a partition, as far as they count there."""
        one = self.partitions[number]
        if "{}" not in self.options.copies:
            raise Refusal(
                f"partition {number} has no journals here: copy another machine's to this one, NAME.position before the"
                " rest, and name the place by --copies, with {} for the partition's number"
            )
        folder = os.path.dirname(one.journal)
        os.makedirs(folder, 0o700, exist_ok=True)
        if self.options.user:
            shutil.chown(folder, self.options.user, self.options.user)
        # (a last run's mark is of journals that are gone)
        if one.last_run and os.path.exists(one.last_run):
            os.remove(one.last_run)
        source = self.options.copies.replace("{}", str(number))
        run([*self.as_user(), NODE, "--copy", source, one.journal])

    def as_user(self) -> list[str]:
        return ["runuser", "-u", self.options.user, "--"] if self.options.user else []


def are_there(journal: str) -> bool:
    if not os.path.isdir(os.path.dirname(journal)):
        return False
    return os.path.exists(journal + POSITION) or bool(shards_of_files(journal).journals)


class Replacing:
    """The commands of the steps, and what they came to."""

    def __init__(self, options: ReplaceOptions) -> None:
        self.options = options
        self.journals = NewJournals(options)
        self.starts = 0
        self.is_node_started = False
        self.began = self.changed = time.monotonic()
        # How often each step has failed since it was done last, and how often it was done.
        self.failed: "dict[str, int]" = {}
        self.done: "dict[str, int]" = {}

    def control(self, broker: str) -> Control:
        return Control(self.options.control, self.options.vhost, ("--node", broker))

    def own(self) -> Optional[Redundancy]:
        try:
            return redundancy_of(self.control(self.options.broker))
        except Refusal:
            return None

    def state(self) -> Replaced:
        living = redundancy_of(self.control(self.options.by))
        waited = time.monotonic() - self.changed
        own = None if self.options.broker in living.running else self.own()
        there = self.journals.lacking(), bool(self.options.node_file), self.is_node_started
        return Replaced(self.options.broker, living, own, self.starts, waited, partitions_of(living), *there)

    def run(self) -> Redundancy:
        """Takes steps until all is there, and returns what the living broker sees then."""
        while (step := next_step(state := self.look())) is not None:
            if step.does is Does.WAIT:
                time.sleep(LOOK_SECONDS)
            else:
                print(f"{step}", flush=True)
                self.take(step)
            if time.monotonic() - self.began > ALL_SECONDS:
                raise Refusal("; ".join([f"it isn't done in {ALL_SECONDS:.0f} s", *what_is_lost(state.living)]))
        return state.living

    def look(self) -> Replaced:
        """Returns what there is, once the living broker says it."""
        what = f"to ask {self.options.by} what is there"
        while True:
            try:
                found = self.state()
            except PassingRefusal as refusal:
                self.note_failed(what, refusal)
            else:
                self.failed.pop(what, None)
                return found

    def take(self, step: Step) -> None:
        """Takes a step. If it fails for a cause that may pass, the next look says which step comes then."""
        try:
            self.steps()[step.does](step.subjects)
        except PassingRefusal as refusal:
            self.note_failed(str(step), refusal)
        else:
            self.failed.pop(str(step), None)
            self.note_done(str(step))

    def note_done(self, what: str) -> None:
        """Refuses to do a step again and again that ends well and changes nothing."""
        self.changed = time.monotonic()
        self.done[what] = self.done.get(what, 0) + 1
        if self.done[what] == TRIES:
            raise Refusal(f"done {TRIES} times, and it isn't enough: {what}. See the log of {self.options.broker}")

    def note_failed(self, what: str, why: PassingRefusal) -> None:
        """Says what failed and is tried again, and waits; refuses once it was tried often enough."""
        self.failed[what] = self.failed.get(what, 0) + 1
        if self.failed[what] == TRIES:
            raise Refusal(f"tried {TRIES} times {what}: {why}") from why
        print(f"this failed, and is tried again in {AGAIN_SECONDS:.0f} s: {what}: {why}", flush=True)
        time.sleep(AGAIN_SECONDS)

    def steps(self) -> "Mapping[Does, Callable[[Sequence[str]], object]]":
        broker, by = self.options.broker, self.options.by
        at_new, at_living = self.control(broker), self.control(by)
        return {
            Does.START_BROKER: lambda _: self.start_broker(),
            Does.FORGET: lambda _: at_living.run("forget_cluster_node", broker),
            Does.STOP: lambda _: at_new.run("stop_app"),
            Does.JOIN: lambda _: (at_new.run("force_reset"), at_new.run("join_cluster", by)),
            Does.START: lambda _: at_new.run("start_app"),
            Does.GROW: lambda names: self.change(names, ADD_MEMBER),
            Does.GROW_ANEW: lambda names: self.change(names, DELETE_MEMBER, ADD_MEMBER),
            Does.REPLICATE: lambda names: self.change(names, ADD_REPLICA),
            Does.REPLICATE_ANEW: lambda names: self.change(names, DELETE_REPLICA, ADD_REPLICA),
            Does.COORDINATE_ANEW: lambda _: self.leave_coordinator(),
            Does.COPY: self.journals.copy_all,
            Does.START_NODE: lambda _: self.start_node(),
        }

    def change(self, queues: Sequence[str], *calls: str) -> None:
        """Changes the members of queues. What comes back isn't believed: the next look has what is there."""
        host, broker = self.options.vhost, self.options.broker
        each = ", ".join(f"(catch {call.format(host=host, broker=broker)})" for call in calls)
        names = ", ".join(f'<<"{queue}">>' for queue in queues)
        self.control(self.options.by).run("eval", f"[[{each}] || Queue <- [{names}]].")

    def leave_coordinator(self) -> None:
        """Takes the new broker out of those that the coordinator of streams lists."""
        member = f"{{rabbit_stream_coordinator, '{self.options.broker}'}}"
        command = f"ra:remove_member({{rabbit_stream_coordinator, node()}}, {member})."
        self.control(self.options.by).run("eval", command)

    def start_broker(self) -> None:
        """Starts the new broker, and waits until it answers, or ends."""
        self.starts += 1
        if not self.options.start_broker:
            raise Refusal(
                f"{self.options.broker} doesn't answer: start the broker on its machine (systemctl start"
                " rabbitmq-server), and run this again"
            )
        try:
            run(shlex.split(self.options.start_broker))
        except CommandEnded as refusal:
            # (one that the others take for a member may end in its start: it comes up once they forgot it)
            raise PassingRefusal(str(refusal)) from refusal
        end = time.monotonic() + BROKER_SECONDS
        while self.own() is None and time.monotonic() < end:
            time.sleep(LOOK_SECONDS)

    def start_node(self) -> None:
        if not self.options.start_node:
            raise Refusal("all is there but the new machine's node: systemctl start issuer-node, and run this again")
        self.is_node_started = True
        run(shlex.split(self.options.start_node))


def run(command: Sequence[str]) -> None:
    """Runs a command. Refuses with its sentence if it fails."""
    try:
        done = subprocess.run(command, capture_output=True, text=True, check=False)
    except OSError as fault:
        raise Refusal(f"{command[0]} can't be run: {fault.strerror}") from fault
    if done.returncode:
        said = (done.stderr or done.stdout).strip().rpartition("\n")[2]
        raise CommandEnded(f"{shlex.join(command)} ended with {done.returncode}: {said}")


def line_of(seen: Redundancy) -> str:
    """Returns what is there in the end, of each kind."""
    return f"three of three: {summary(seen)}, journals {COPIES} of {COPIES}"


def main(words: Sequence[str]) -> int:
    options = options_of(words)
    try:
        print(line_of(Replacing(options).run()))
        return 0
    except (Refusal, OSError) as fault:
        tell(NAME, f"missing: {fault}")
        return 1
