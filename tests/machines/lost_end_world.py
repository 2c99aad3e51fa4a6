"""A world whose stream loses its end while all machines are without power: what machines have taken of it stays.

A machine whose position lies beyond the end is away: it sees that its last message is gone. Each other one goes on. If
a host of it may have recorded since its position, it can't tell those records from others. Else it took each record of
its journals from the stream: they counted, and somebody may have been answered by them. So in no order of what happens
then does such a machine truncate one of them. If each machine that goes on has all records that were answered, and
can tell, nobody is answered otherwise.
"""
import random
from collections.abc import Callable, Iterable
from typing import NamedTuple

from issuer_host.replication.own_records import OwnRecords
from issuer_host.replication.rule_events import Beginning
from machines.replication_world import Broken, COUNTERS, LostEnd, Node, Step, World, WorldRule

STEPS = (*("read",) * 12, *("take",) * 10, *("call",) * 3, *("ask",) * 8)
RARE = ("keep", "keep", "keep", "disconnect", "kill", "lose", "write_again", "crash")
SHARDS, MACHINES = 2, 3


class Seen(NamedTuple):
    """What became of a world: how many machines had taken what was lost, and how many stopped."""

    had_taken: int
    stopped: int


def may(world: World, node: Node, name: str) -> bool:
    """Whether a step can happen."""
    can = {
        "read": node.position < len(world.stream),
        "take": bool(node.written),
        "lose": bool(node.written),
        "call": node.is_in_line,
        "ask": node.is_serving,
        "crash": node.is_serving,
    }
    return can.get(name, True)


class LosingWorld:
    """A world before and after its stream loses its end."""

    def __init__(
        self, new_rule: "Callable[[Beginning], WorldRule]", seed: int, own: type[OwnRecords] = OwnRecords
    ) -> None:
        self.choose = random.Random(seed)
        self.world = World(new_rule, machines=MACHINES, shards=SHARDS, own=own)
        # By machine and shard: the records of a journal that count, or counted before the end was lost.
        self.taken: "dict[tuple[int, int], list[str]]" = {}
        self.stopped = 0

    def play(self, steps: int) -> Seen:
        """Goes through random steps, loses the end, and goes through others. A promise that is broken is Broken."""
        for _ in range(self.choose.randrange(steps // 8, steps)):
            self.step()
        late = self.lose()
        for number in range(steps):
            if number == steps // 2:
                self.begin(late)
            if len(self.world.away) < MACHINES:
                self.step()
            self.check()
        return Seen(len({number for number, _ in self.taken}), self.stopped)

    def step(self) -> None:
        """Something happens at a machine that isn't away."""
        node = self.choose.choice([node for node in self.world.nodes if node.number not in self.world.away])
        name = self.choose.choice(RARE if self.choose.random() < 0.08 else STEPS)
        if may(self.world, node, name):
            self.guarded(node, lambda: self.world.do(Step(name, node.number, self.choose.choice(COUNTERS))))

    def guarded(self, node: Node, step: Callable[[], None]) -> None:
        """Takes a step of a machine. One that stops does nothing more."""
        try:
            step()
        except LostEnd:
            self.world.away.add(node.number)
            self.stopped += 1

    # The end that is lost

    def lose(self) -> "list[Node]":
        """The stream loses its end, and those begin again that don't see it by their positions: some of them later."""
        world, history = self.world, self.world.history
        counted = [[record.text for record in log] for log in history]
        world.lose_end(self.choose.randrange(len(world.stream) + 1))
        world.away = {node.number for node in world.nodes if node.kept.position > len(world.stream)}
        left = [node for node in world.nodes if node.number not in world.away]
        for node in left:
            self.find_taken(node, counted)
        if not all(self.has_taken(node, text) for node in left for text in world.replies.values()):
            # (what only a machine knew that is away, or that can't tell, may be answered otherwise)
            world.replies.clear()
        late = [node for node in left if self.choose.random() < 0.5]
        world.away.update(node.number for node in late)
        self.begin(node for node in left if node not in late)
        return late

    def begin(self, nodes: "Iterable[Node]") -> None:
        for node in nodes:
            self.world.away.discard(node.number)
            self.guarded(node, node.begin_again)

    def find_taken(self, node: Node, counted: "list[list[str]]") -> None:
        """Finds the shards of which a machine has records beyond its position that it took from the stream."""
        for shard in range(SHARDS):
            found = [record.text for record in node.held[shard]]
            if not node.kept.served[shard] and len(found) > node.kept.records[shard]:
                if found != counted[shard][: len(found)]:
                    raise Broken(f"machine {node.number} followed, and has {found}, where {counted[shard]} count")
                self.taken[node.number, shard] = found

    def has_taken(self, node: Node, text: str) -> bool:
        """Whether a machine knows that a record counts, or counted before the end was lost."""
        known = [record.text for shard in range(SHARDS) for record in node.held[shard][: node.kept.records[shard]]]
        return text in known or any(text in self.taken.get((node.number, shard), ()) for shard in range(SHARDS))

    def check(self) -> None:
        for (number, shard), texts in self.taken.items():
            node = self.world.nodes[number]
            found = [record.text for record in node.held[shard]]
            if found[: len(texts)] != texts:
                raise Broken(f"machine {number} truncated what it had taken, {texts}, and has {found}")
            if node.has_host and number not in self.world.away and node.count.records[shard] < len(texts):
                raise Broken(f"machine {number} serves, and the stream hasn't all of {texts}, which it had taken")
