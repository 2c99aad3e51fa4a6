"""A cluster of brokers as numbers and names: what steps of `issuer-replace` change in it."""
from typing import Optional

from issuer_host.broker.redundancy import COORDINATOR, Group, OF_STREAMS, QUEUE, Redundancy, STREAM
from issuer_host.replication.replacement import Does, Replaced, Step

BROKERS = tuple(f"rabbit@10.0.0.{number}" for number in (1, 2, 3))
NEW, LIVING = BROKERS[2], BROKERS[0]
KINDS = {"issuer.dead": QUEUE, "issuer.requests.0": QUEUE, "issuer.requests.0.records": STREAM, OF_STREAMS: COORDINATOR}
PARTITIONS = 1


class ReplacedWorld:
    """Three brokers, one of which lost its disk."""

    def __init__(self) -> None:
        # Those that the others take for members; whether the new one answers, runs, and knows the others.
        self.members = set(BROKERS)
        self.answers = self.runs = self.knows = False
        # By group: whom it lists, and who answers.
        self.listed = {name: set(BROKERS) for name in KINDS}
        self.online = {name: set(BROKERS[:2]) for name in KINDS}
        self.has_journals = self.follows = False
        self.starts = 0
        # Queues that the new broker has by itself.
        self.own_queues: tuple[str, ...] = ()
        self.waited = 0.0

    def groups(self) -> tuple[Group, ...]:
        line = 3 if self.follows and self.is_in() else 2
        return tuple(
            Group(name, kind, tuple(sorted(self.listed[name])), tuple(sorted(self.online[name])), line, BROKERS[:line])
            for name, kind in KINDS.items()
        )

    def is_in(self) -> bool:
        return self.runs and self.knows and NEW in self.members

    def living(self) -> Redundancy:
        running = BROKERS if self.is_in() else BROKERS[:2]
        return Redundancy(LIVING, True, tuple(sorted(self.members)), running, BROKERS, self.groups())

    def own(self) -> Optional[Redundancy]:
        if not self.answers:
            return None
        brokers = BROKERS if self.knows else (NEW,)
        groups = tuple(Group(name, QUEUE, (NEW,), (NEW,), 0) for name in self.own_queues)
        return Redundancy(NEW, self.runs, brokers, (NEW,), BROKERS, groups)

    def state(self, is_here: bool = True) -> Replaced:
        lacking = () if self.has_journals or not is_here else (0,)
        seen = self.living(), self.own()
        return Replaced(NEW, *seen, self.starts, self.waited, PARTITIONS, lacking, is_here, self.follows)

    def take(self, step: Step) -> None:
        """Does what a step does; waiting lets what was just made answer."""
        self.waited = self.waited + 5.0 if step.does is Does.WAIT else 0.0
        does = step.does
        if does is Does.START_BROKER:
            self.answers, self.runs, self.starts = True, True, self.starts + 1
        elif does is Does.FORGET:
            self.members.discard(NEW)
            self.leave(*(name for name, kind in KINDS.items() if kind == QUEUE))
        elif does is Does.STOP:
            self.runs = False
        elif does is Does.JOIN:
            self.members.add(NEW)
            self.knows = True
        elif does is Does.START:
            self.runs = True
        elif does in (Does.GROW, Does.REPLICATE, Does.GROW_ANEW, Does.REPLICATE_ANEW):
            for name in step.subjects:
                self.listed[name].add(NEW)
                self.online[name].add(NEW)
        elif does is Does.COORDINATE_ANEW:
            self.leave(OF_STREAMS)
        elif does is Does.COPY:
            self.has_journals = True
        elif does is Does.START_NODE:
            self.follows = True
        elif NEW not in self.listed[OF_STREAMS]:
            # (it grows by itself)
            self.listed[OF_STREAMS].add(NEW)
            self.online[OF_STREAMS].add(NEW)

    def leave(self, *groups: str) -> None:
        for name in groups:
            self.listed[name].discard(NEW)
            self.online[name].discard(NEW)
