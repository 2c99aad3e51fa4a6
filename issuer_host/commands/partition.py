"""Cuts a list of cards into the configurations of P partitions, or adds cards to those in use.

usage: partition --of P --cards CSV --template FILE --to FOLDER [--program PATH]

--of        how many partitions; it can't change while there are journals (deploy/repartition)
--cards     the list: a first line `pan,psn,method`, then a line for each card
--template  a configuration without cards: shards, keys and table
--to        the folder of the configurations, 0.json to P-1.json

If the folder has configurations, they are in use: cards are added at the end of each. The table may change, and key
sets and keys for AES may be added. Refused is what would make records invalid: another P or number of shards, a key set
or card that is gone or changed. Nothing is written then, and the status is 1.

Before anything is written the program judges each configuration, over empty journals of its own. It prints how many
cards each partition has.
"""
import argparse
import csv
import json
import os
import re
import tempfile
from collections.abc import Sequence
from typing import NamedTuple, Optional

from issuer_host.facts.limits import MAX_CARDS
from issuer_host.facts.masks import name_of_card
from issuer_host.facts.partitions import partition_configuration, partition_of
from issuer_host.facts.refusal import Refusal, tell
from issuer_host.commands import configurations
from issuer_host.commands.configurations import Json, name_of
from issuer_host.files.folders import sync_folder
from issuer_host.files.placement import move_in_place
from issuer_host.host import offline

COLUMNS = ["pan", "psn", "method"]
# What each column has to be.
FORMS = ("[0-9]{8,19}", "[0-9]{2}", "[12]")
# The folder of configurations that are ready to be put in place.
NEXT = "next"
MEMBERS = ("shards", "keys", "table")
# So many cards a partition leave room to add some.
COMFORTABLE = 3700


class PartitionOptions(NamedTuple):
    """The words of the command."""

    of: int
    cards: str
    template: str
    to: str
    program: Optional[str]


def options_of(words: Sequence[str]) -> PartitionOptions:
    parser = argparse.ArgumentParser(usage=__doc__)
    parser.add_argument("--of", type=int, required=True)
    parser.add_argument("--cards", required=True)
    parser.add_argument("--template", required=True)
    parser.add_argument("--to", required=True)
    parser.add_argument("--program")
    return PartitionOptions(**vars(parser.parse_args(words)))


def cards_of(path: str) -> list[Json]:
    """Returns the cards of the list, in its order."""
    try:
        # (spreadsheets begin a file with a byte order mark)
        with open(path, encoding="utf-8-sig", newline="") as text:
            rows = list(csv.reader(text))
    except OSError as fault:
        raise Refusal(f"{path} can't be read: {fault.strerror}") from fault
    if rows[:1] != [COLUMNS]:
        raise Refusal(f"the first line of {path} isn't `{','.join(COLUMNS)}`")
    cards = {}
    for number, row in enumerate(rows[1:], 2):
        if len(row) != len(FORMS) or not all(map(re.fullmatch, FORMS, row)):
            what = "a PAN of 8 to 19 digits, a PSN of two and a method 1 or 2 are needed"
            raise Refusal(f"{path}, line {number}: {what}")
        pan, psn, method = row
        if (pan, psn) in cards:
            raise Refusal(f"{path}, line {number}: the {name_of_card(pan, psn)} is in the list already")
        cards[pan, psn] = {"pan": pan, "psn": psn, "method": int(method)}
    return list(cards.values())


def cut(cards: Sequence[Json], partitions: int) -> list[list[Json]]:
    """Returns the cards of each partition."""
    parts: list[list[Json]] = [[] for _ in range(partitions)]
    for card in cards:
        parts[partition_of(card["pan"], partitions)].append(card)
    most = max(map(len, parts))
    if most > MAX_CARDS:
        enough = len(cards) // COMFORTABLE + 1
        what = f"a partition gets {most} cards, and a host has room for {MAX_CARDS}"
        raise Refusal(f"{what}: cut into more partitions, about {enough}")
    if [] in parts:
        what = f"partition {parts.index([])} gets no card, and a configuration needs one"
        raise Refusal(f"{what}: cut into fewer partitions")
    return parts


def joined(old: list[Json], cards: list[Json]) -> list[Json]:
    """Returns the cards in use in their order, then the new ones in the list's."""
    configurations.check_methods(old, cards)
    known = {name_of(card) for card in old}
    return old + [card for card in cards if name_of(card) not in known]


def merge(template: Json, partitions: int, cards: Sequence[Json], in_use: Sequence[Json]) -> list[Json]:
    """Returns the new configurations, checked against those in use."""
    for member in MEMBERS:
        if member not in template:
            raise Refusal(f"the template has no member `{member}`")
    if in_use and len(in_use) != partitions:
        raise Refusal(f"{len(in_use)} partitions are in use: deploy/repartition moves their journals to {partitions}")
    found = []
    for number, own in enumerate(cut(cards, partitions)):
        if in_use:
            own = added(in_use[number], template, own)
        found.append({"partition": {"number": number, "of": partitions}} | template | {"cards": own})
    return found


def added(old: Json, template: Json, own: list[Json]) -> list[Json]:
    """Returns the cards of a partition in use with those that are new, or refuses what may not change."""
    if old["shards"] != template["shards"]:
        what = f"{old['shards']} shards are in use, which can't change to {template['shards']}"
        raise Refusal(f"{what}: deploy/repartition moves their journals")
    configurations.check_keys(old["keys"], template["keys"])
    return joined(old["cards"], own)


def write_all(folder: str, found: Sequence[Json], program: Optional[str]) -> None:
    """Writes each beside its place, has the program judge them, and puts them in place.

    The folder `next` has all of them or isn't there. So a run that is cut short is finished by the next one.
    """
    with tempfile.TemporaryDirectory(dir=folder, prefix="new-") as room:
        ready = os.path.join(room, "ready")
        os.mkdir(ready)
        for number, configuration in enumerate(found):
            write(partition_configuration(ready, number), json.dumps(configuration, indent=1) + "\n")
            judge(ready, room, number, program)
        sync_folder(ready)
        move_in_place(ready, os.path.join(folder, NEXT))
    finish(folder)


def finish(folder: str) -> None:
    """Puts configurations in place that a run before has written, judged and not all put in place."""
    ready = os.path.join(folder, NEXT)
    if not os.path.isdir(ready):
        return
    for name in sorted(os.listdir(ready)):
        move_in_place(os.path.join(ready, name), os.path.join(folder, name))
    os.rmdir(ready)


def write(path: str, text: str) -> None:
    """Writes a file durably, for this user alone."""
    with open(os.open(path, os.O_CREAT | os.O_WRONLY | os.O_CLOEXEC, 0o600), "w", encoding="utf-8") as to:
        to.write(text)
        to.flush()
        os.fsync(to.fileno())


def judge(folder: str, room: str, number: int, program: Optional[str]) -> None:
    """Has the program judge a configuration, over empty journals in another folder."""
    try:
        offline.show(partition_configuration(folder, number), os.path.join(room, str(number)), program, begins=True)
    except offline.Failed as fault:
        raise Refusal(f"the program refuses the configuration of partition {number}: {fault}") from fault


def partition(options: PartitionOptions) -> None:
    if options.of < 1:
        raise Refusal("there is at least one partition")
    os.makedirs(options.to, mode=0o700, exist_ok=True)
    finish(options.to)
    in_use = configurations.read_folder(options.to)
    cards = cards_of(options.cards)
    found = merge(configurations.read_json(options.template), options.of, cards, in_use)
    write_all(options.to, found, options.program)
    for number, configuration in enumerate(found):
        before = len(in_use[number]["cards"]) if in_use else 0
        count = len(configuration["cards"])
        print(f"partition {number}: {count} cards, {count - before} of them new")


def main(words: Sequence[str]) -> int:
    options = options_of(words)
    os.umask(0o077)
    try:
        partition(options)
    except Refusal as refusal:
        tell("partition", str(refusal))
        return 1
    return 0
