"""Moves journals to another number of partitions or shards, while no host runs.

usage: repartition --from CONFIGURATIONS STATE --to CONFIGURATIONS STATE [--program PATH]

Each pair is a folder of configurations, as deploy/partition wrote it, and a folder of state, with the journals of
partition N in `N/`. The new configurations are made before, by `deploy/partition --of P` into another folder; the new
state has no journals yet. Both have the same key sets and cards, and the new one may have more.

Records go by card, and the order within a card is kept. The journals that they come from stay as they are. Before and
after, each card is shown: the lines have to be equal. Journals of version 1 are copied into journals of version 2 by a
start of the program before. The status is 0 if they are; 1 if something is refused or differs, and then the new state
is not to be used.
"""
import argparse
import contextlib
import os
import resource
from collections.abc import Sequence
from typing import NamedTuple, Optional, TextIO

from issuer_host.facts.journals import card_of_record, journal_path, journals_of, records_of
from issuer_host.facts.masks import name_of_card
from issuer_host.facts.partitions import partition_configuration, partition_journal
from issuer_host.facts.refusal import Refusal, tell
from issuer_host.facts.show_lines import ShownCard
from issuer_host.facts.statuses import Status
from issuer_host.commands import configurations
from issuer_host.commands.configurations import Json, name_of
from issuer_host.files.folders import as_owner, folder_of, open_own
from issuer_host.files.run_mark import lock_mark
from issuer_host.host import offline
from issuer_host.host.offline import Card


class RepartitionOptions(NamedTuple):
    """The words of the command."""

    old: list[str]
    new: list[str]
    program: Optional[str]


def options_of(words: Sequence[str]) -> RepartitionOptions:
    parser = argparse.ArgumentParser(usage=__doc__)
    parser.add_argument("--from", dest="old", nargs=2, required=True)
    parser.add_argument("--to", dest="new", nargs=2, required=True)
    parser.add_argument("--program")
    return RepartitionOptions(**vars(parser.parse_args(words)))


class Touched(NamedTuple):
    """What tells whether a file was touched."""

    inode: int
    size: int
    time: int


class Side:
    """Configurations and their journals."""

    def __init__(self, folder: str, state: str) -> None:
        self.folder = folder
        self.state = state
        self.configurations: list[Json] = configurations.read_folder(folder)
        if not self.configurations:
            raise Refusal(f"{folder} has no configurations")

    def journal(self, partition: int) -> str:
        return partition_journal(self.state, partition)

    def paths(self) -> list[str]:
        """Returns all journals, partition after partition, shard after shard."""
        return [
            journal_path(self.journal(partition), shard)
            for partition, configuration in enumerate(self.configurations)
            for shard in range(configuration["shards"])
        ]

    def touched(self) -> list[Touched]:
        found = [os.stat(path) for path in self.paths()]
        return [Touched(one.st_ino, one.st_size, one.st_mtime_ns) for one in found]

    def mark_appended(self) -> None:
        """Says beside the journals that what comes next no run of the program writes."""
        for partition in range(len(self.configurations)):
            name = self.journal(partition)
            with as_owner(folder_of(name)):
                mark = lock_mark(name)
            if mark is None:
                raise Refusal(f"a host runs over {name}: stop it")
            mark.may_append()
            mark.close()

    def cards(self) -> list[Json]:
        return [card for configuration in self.configurations for card in configuration["cards"]]

    def paths_of_cards(self) -> dict[Card, str]:
        """Returns the path of each card's journal."""
        found = {}
        for partition, configuration in enumerate(self.configurations):
            for number, card in enumerate(configuration["cards"]):
                found[name_of(card)] = journal_path(self.journal(partition), number % configuration["shards"])
        return found

    def show(self, program: Optional[str], begins: bool = False) -> dict[Card, ShownCard]:
        """Returns what is shown of each card."""
        found: dict[Card, ShownCard] = {}
        for partition in range(len(self.configurations)):
            config = partition_configuration(self.folder, partition)
            try:
                found |= offline.show(config, self.journal(partition), program, begins)
            except offline.Failed as fault:
                busy = " Stop the partition's bridges first." if fault.status == Status.JOURNAL_CLOSED else ""
                raise Refusal(f"partition {partition} of {self.folder}: {fault}.{busy}") from fault
        return found


def move(old: Side, new: Side) -> int:
    """Appends each record to its card's new journal, durably. Returns how many there are."""
    paths = new.paths_of_cards()
    count = 0
    with contextlib.ExitStack() as files:
        opened = {path: files.enter_context(append_to(path)) for path in new.paths()}
        for path in old.paths():
            for line in records_of(path, open_own):
                opened[paths[card_of_record(line)]].write(f"{line}\n")
                count += 1
        for file in opened.values():
            file.flush()
            os.fsync(file.fileno())
    return count


def append_to(path: str) -> TextIO:
    """Opens a journal to append to, as the user of its folder."""
    return os.fdopen(open_own(path, os.O_WRONLY | os.O_APPEND), "w", encoding="ascii")


def check_sides(old: Side, new: Side) -> None:
    """Refuses sides that share a folder, that differ in keys or cards, or that have journals at the new place."""
    if old.state == new.state or old.folder == new.folder:
        raise Refusal("the new configurations and the new state have folders of their own")
    for configuration in old.configurations:
        configurations.check_keys(configuration["keys"], new.configurations[0]["keys"])
    configurations.check_methods(old.cards(), new.cards())
    owner = os.stat(old.state)
    for partition in range(len(new.configurations)):
        folder = os.path.dirname(new.journal(partition))
        for path in (new.state, folder):
            if not os.path.isdir(path):
                os.makedirs(path, mode=0o700)
                os.chown(path, owner.st_uid, owner.st_gid, follow_symlinks=False)
        if journals_of(new.journal(partition)):
            raise Refusal(f"{folder} has journals already: name an empty state")


def repartition(old: Side, new: Side, program: Optional[str]) -> None:
    check_sides(old, new)
    before = old.show(program)
    touched = old.touched()
    new.show(program, begins=True)
    new.mark_appended()
    count = move(old, new)
    if old.touched() != touched:
        what = "stop all bridges, remove the new state, and begin again"
        raise Refusal(f"an old journal changed meanwhile: {what}")
    after = new.show(program)
    different = [card for card, shown in before.items() if after.get(card) != shown]
    if different:
        what = f"{len(different)} cards are shown otherwise than before, {name_of_card(*different[0])} first"
        raise Refusal(f"{what}: keep to the old state")
    partitions = f"{len(old.configurations)} partitions to {len(new.configurations)}"
    print(f"{count} records of {len(before)} cards moved from {partitions}; each card is shown as before")


def main(words: Sequence[str]) -> int:
    options = options_of(words)
    os.umask(0o077)
    most = resource.getrlimit(resource.RLIMIT_NOFILE)[1]
    resource.setrlimit(resource.RLIMIT_NOFILE, (most, most))
    try:
        repartition(Side(*options.old), Side(*options.new), options.program)
    except Refusal as refusal:
        tell("repartition", str(refusal))
        return 1
    return 0
