"""Cards that are cut into partitions, added to and moved to other numbers with their journals; orders."""
import fcntl
import glob
import json
import os
import re
import tempfile
from collections.abc import Iterable, Iterator
from contextlib import contextmanager
from typing import Any

from checks import Tally, check_of
from deployment.running import Ran, fails, run
from issuer_host.facts.partitions import partition_of
from runs import configuration, content_of, write_text

CARDS = 40
# So many cards come later.
ADDED = 5
FREE_CARD = "5"


def cards_text(numbers: Iterable[int]) -> str:
    """The file of cards with these numbers."""
    return "pan,psn,method\n" + "".join(f"{FREE_CARD}{number:015d},00,{1 + number % 2}\n" for number in numbers)


FEWER = cards_text(range(CARDS))
ALL = cards_text(range(CARDS + ADDED))


def templates() -> dict[str, dict[str, Any]]:
    """The configurations without cards that are cut, by the names of their files."""
    template = json.loads(configuration())
    del template["cards"]
    key = template["keys"][0]
    return {
        "template": template,
        "other": template | {"shards": 3},
        "keyless": template | {"keys": [key | {"ac": "1" * 32}]},
        "aes": template | {"keys": [key | {"aes_ac": "a" * 32, "aes_smi": "b" * 32}]},
        "pins": template | {"keys": [key | {"smc": "c" * 32}]},
        "other-pins": template | {"keys": [key | {"smc": "d" * 32}]},
        "broken": template | {"table": []},
    }


class Site:
    """A folder with templates, in which cards are cut, and the journals of partitions below it."""

    def __init__(self, tally: Tally, folder: str) -> None:
        self.tally = tally
        self.folder = folder
        self.program = ["--program", tally.program]
        for name, template in templates().items():
            write_text(folder, name, json.dumps(template))

    def path(self, name: str) -> str:
        return os.path.join(self.folder, name)

    def cut(self, to: str, partitions: int, cards: str = FEWER, template: str = "template") -> Ran:
        """Cuts cards into partitions, by deploy/partition."""
        write_text(self.folder, "cards", cards)
        files = ["--cards", self.path("cards"), "--template", self.path(template), "--to", self.path(to)]
        return run(self.tally, "partition", "--of", str(partitions), *files, *self.program)

    def is_cut(self, to: str, partitions: int, cards: str = FEWER) -> None:
        ran = self.cut(to, partitions, cards)
        self.tally.expect(ran.returncode, 0, f"the status of a cut into {partitions}, with {ran.stderr!r}")

    def files(self, configurations: str, journals: str, partition: int) -> list[str]:
        config = self.path(f"{configurations}/{partition}.json")
        return ["--config", config, "--journal", self.path(f"{journals}/{partition}/journal")]

    def begin(self, configurations: str, journals: str, partition: int) -> None:
        """Creates the journals of a partition."""
        os.makedirs(self.path(f"{journals}/{partition}"))
        files = self.files(configurations, journals, partition)
        ran = run(self.tally, "issuer-run", "--begin", *self.program, "show", *files)
        if ran.returncode:
            raise ValueError(f"no journal began: {ran}")

    def order(self, partition: int, lines: str, *more: str) -> Ran:
        return run(self.tally, "order", *self.files("c2", "s2", partition), *self.program, *more, input=lines)

    def pans(self, partition: int) -> list[str]:
        configuration = json.loads(content_of(self.path(f"c2/{partition}.json")))
        return [card["pan"] for card in configuration["cards"]]


@contextmanager
def new_site(tally: Tally) -> Iterator[Site]:
    with tempfile.TemporaryDirectory() as folder:
        yield Site(tally, folder)


def card_stays_in_its_partition(tally: Tally) -> None:
    """The partition of a card is what it always was: the cards of all journals would move."""
    tally.expect(partition_of("4000000000000002", 4), 1, "the partition of a card")


def adds_cards(tally: Tally) -> None:
    """A second cut with more cards, in another order, adds those that are new."""
    with new_site(tally) as site:
        site.is_cut("c2", 2)
        ran = site.cut("c2", 2, cards_text(range(CARDS + ADDED - 1, -1, -1)))
        added = sum(int(count) for count in re.findall(r"(\d+) of them new", ran.stdout))
        tally.expect((ran.returncode, added), (0, ADDED), f"status and new cards, with {ran.stderr!r}")


def takes_cards_of_a_spreadsheet(tally: Tally) -> None:
    """A list of cards that begins with a byte order mark, as spreadsheets write it, is cut as one without."""
    with new_site(tally) as site:
        site.is_cut("to", 2)
        site.is_cut("marked", 2, "\ufeff" + FEWER)
        tally.expect(content_of(site.path("marked/0.json")), content_of(site.path("to/0.json")), "partition 0")


def keys_for_aes_come(tally: Tally) -> None:
    """Keys for AES may come, and may not go."""
    with new_site(tally) as site:
        ended = [site.cut("c3", 2, FEWER, name).returncode for name in ("template", "aes", "aes", "template")]
        tally.expect(ended, [0, 0, 0, 1], "the statuses of a cut without them, twice with them, and without them")


def key_for_confidentiality_changes(tally: Tally) -> None:
    """A key for confidentiality may come, change and go."""
    with new_site(tally) as site:
        ended = [site.cut("c4", 2, FEWER, name).returncode for name in ("template", "pins", "other-pins", "template")]
        tally.expect(ended, [0, 0, 0, 0], "the statuses of a cut without one, with one, with another, and without one")


def refuses_what_may_not_change(tally: Tally) -> None:
    """A cut that would lose or change what is there is refused, and leaves the configurations as they are."""
    with new_site(tally) as site:
        site.is_cut("c2", 2, ALL)
        held = {path: content_of(path) for path in glob.glob(site.path("c2/*.json"))}
        tally.expect(len(held), 2, "the configurations of two partitions")
        fails(tally, site.cut("c2", 2, cards_text(range(1, CARDS + ADDED))), "a card is gone", "is gone")
        fails(tally, site.cut("c2", 2, ALL.replace(",1\n", ",2\n")), "a method changed", "method")
        fails(tally, site.cut("c2", 3, ALL), "other partitions", "repartition")
        fails(tally, site.cut("c2", 2, ALL, "other"), "other shards", "shards")
        fails(tally, site.cut("c2", 2, ALL, "keyless"), "other keys", "another DKI")
        fails(tally, site.cut("c9", 2, FEWER, "broken"), "a wrong table", "stop 2 5 0")
        fails(tally, site.cut("c9", 2, cards_text([1, 1])), "a card twice", "line 3")
        tally.expect({path: content_of(path) for path in held}, held, "the configurations after refused cuts")


def queue_and_set(site: Site, partition: int) -> None:
    """A command and a status for each card of a partition, by order."""
    lines = "".join(
        f"Q {pan} 00 8416000{at % 2}\nS {pan} 00 {at % 10}\n" for at, pan in enumerate(site.pans(partition))
    )
    ran = site.order(partition, lines)
    came = ran.returncode, ran.stdout.count("queued")
    site.tally.expect(came, (0, len(site.pans(partition))), f"an order's status and commands, with {ran.stderr!r}")


def orders_once(tally: Tally) -> None:
    """Orders are written once, by one at a time; one that the program refuses ends with its answer."""
    with new_site(tally) as site:
        site.is_cut("c2", 2, ALL)
        site.begin("c2", "s2", 0)
        queue_and_set(site, 0)
        again = f"Q {site.pans(0)[0]} 00 84160000\n"
        fails(tally, site.order(0, again, "--queued", "0"), "an order again", "nothing was ordered")
        with open(site.path("s2/0/journal.orders"), encoding="ascii") as lock:
            fcntl.flock(lock, fcntl.LOCK_EX)
            fails(tally, site.order(0, again), "two orders at once", "another order")
        fails(tally, site.order(0, again.replace("8416", "8016")), "an order that is refused", "refused 14")


def moves_journals(tally: Tally) -> None:
    """Journals move from two partitions to five and back, and every card is as before."""
    with new_site(tally) as site:
        site.is_cut("c2", 2, ALL)
        for partition in range(2):
            site.begin("c2", "s2", partition)
            queue_and_set(site, partition)
        for of, to, old, new in ((2, 5, ("c2", "s2"), ("c5", "s5")), (5, 2, ("c5", "s5"), ("again", "moved"))):
            site.is_cut(new[0], to, ALL)
            words = ["--from", *map(site.path, old), "--to", *map(site.path, new)]
            ran = run(tally, "repartition", *words, *site.program)
            is_same = ran.returncode == 0 and "as before" in ran.stdout
            tally.holds(is_same, f"{of} to {to}: status {ran.returncode}, {ran.stdout!r} {ran.stderr!r}")


CHECKS = [
    check_of(body)
    for body in (
        card_stays_in_its_partition,
        adds_cards,
        takes_cards_of_a_spreadsheet,
        keys_for_aes_come,
        key_for_confidentiality_changes,
        refuses_what_may_not_change,
        orders_once,
        moves_journals,
    )
]
