"""Cards at terminals, a network that loses and spoils, and their issuer's host: what `world` counts.

docs/formats/lines.md says what each count is.
"""
from oracle.card import Card, commands_in
from oracle.chip_data import Request, objects
from oracle.configuration import MOST, CardInfo, Issuer, KeySet, TableRow
from oracle.host import Host
from oracle.suites import Suite
from oracle.terminal import line_of

SHARDS = 4
COUNTS = [
    "taps",
    "fresh",
    "approved",
    "kept",
    "refused",
    "authenticated",
    "unauthenticated",
    "queued",
    "done",
    "ran",
    "halted",
]


def table_row(least: int, code: str, approve: bool, csu: str) -> TableRow:
    nothing = bytes(5)
    return TableRow(
        nothing, nothing, nothing, nothing, least, MOST, None, bytes.fromhex(code), approve, bytes.fromhex(csu)
    )


def issuer_of(cards: int) -> Issuer:
    keys = KeySet(1, "A", (bytes(range(16)), bytes(range(16, 32))))
    infos = [CardInfo(f"4000000000{number:06d}", "00", 1 + number % 2) for number in range(cards)]
    return Issuer(
        SHARDS, [keys], infos, [table_row(500_000, "3035", False, "00000000"), table_row(0, "3030", True, "00800000")]
    )


class World:
    def __init__(self, cards: int) -> None:
        issuer = issuer_of(cards)
        self.host = Host(issuer, lambda shard, record: None)
        self.cards = [Card(info, issuer.known_keys_of(info, 1, Suite.TRIPLE_DES)) for info in issuer.cards]
        self.held: dict[int, Request] = {}
        self.counts = dict.fromkeys(COUNTS, 0)

    def count(self, name: str, by: int = 1) -> None:
        self.counts[name] += by

    def ask(self, line: bytes) -> tuple[bytes, bytes] | None:
        """The bytes for the card and the response code, or None where the line is refused."""
        word, *more = self.host.answer(line).split()
        self.count(word)
        if word not in ("fresh", "kept"):
            return None
        self.count("approved", word == "fresh" and more[2] == "yes")
        return bytes.fromhex(more[4]), bytes.fromhex(more[3])

    def arrive(
        self, card: Card, reply: tuple[bytes, bytes] | None, commands: int | None = None, spoil: int = 0
    ) -> None:
        """The reply reaches the card: issuer authentication, and then the commands, all or so many."""
        if reply is None:
            return
        values = dict(objects(reply[0]))
        value = bytes([values["91"][0] ^ spoil]) + values["91"][1:]
        if not card.authenticate(value, reply[1]):
            self.count("unauthenticated")
            return
        self.count("authenticated")
        for command in commands_in(reply[0])[:commands]:
            card.run(command)

    def step(self, index: int, seed: int) -> None:
        which = index % len(self.cards)
        turn = index // len(self.cards)
        card = self.cards[which]
        fate = (turn + which + seed) % 8
        if fate == 0:
            for parameter in range(3):
                self.ask(f"Q {card.info.pan} {card.info.psn} 04da00{parameter:02x}{index:08x}".encode())
        amount = 900_000 if turn % 2 else 1_000
        number = (seed + index) % 2**32
        request = card.tap(amount=bytes.fromhex(f"{amount:012d}"), number=number.to_bytes(4, "big"))
        self.count("taps")
        if fate == 1:
            return
        if fate == 4:
            self.held[which] = request
            return
        if fate == 7:
            wrong = request.cryptogram[:7] + bytes([request.cryptogram[7] ^ 1])
            self.ask(line_of(request._replace(cryptogram=wrong)))
        reply = self.ask(line_of(request))
        if fate == 0:
            return
        if fate == 3:
            reply = self.ask(line_of(request))
        self.arrive(card, reply, commands=1 if fate == 2 else None, spoil=1 if fate == 6 else 0)
        if fate == 5 and which in self.held:
            self.arrive(card, self.ask(line_of(self.held.pop(which))))

    def text(self) -> str:
        rows = self.host.rows
        self.counts |= {
            "done": sum(row.scripts.done for row in rows),
            "ran": sum(len(card.ran) for card in self.cards),
            "halted": sum(row.scripts.halted for row in rows),
        }
        return "".join(f"{name} {self.counts[name]}\n" for name in COUNTS)


def play(cards: int, steps: int, seed: int) -> str:
    world = World(cards)
    for index in range(steps):
        world.step(index, seed)
    return world.text()
