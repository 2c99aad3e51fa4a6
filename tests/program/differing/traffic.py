"""Configurations, and lines for their cards: requests, commands and statuses, valid and hostile, and certificates."""
import json
import random
from collections.abc import Callable
from typing import Any, NamedTuple, Optional

from oracle.cards import tlv
from oracle.chip_data import Request
from oracle.configuration import read_configuration
from oracle.host import Host
from oracle.suites import Suite
from oracle.terminal import field_objects, line_of, long_line_of, purchase, signed
from program.differing.damage import flipped
from runs import Masked, table_row

Settings = dict[str, Any]
AMOUNTS = (0, 12345, 499_999, 500_000, 500_001)
# How far a new ATC is from the greatest one, with weights, and how far a late one.
STEPS = {1: 60, 2: 20, 30: 5, 64: 2, 65: 2, 256: 2, 257: 2, 1600: 1}
LATE_STEPS = (1, 2, 5, 20, 62, 63, 64, 65, 100, 254, 255, 256, 257, 400)
# The key set that has no keys for AES.
NO_AES = 2
# The bytes of a request that no card or key set changes.
NOTHING = bytes(6)


class Asked(NamedTuple):
    """A request that was asked, and its line."""

    request: Request
    line: bytes


def key_set(dki: int, option: str, has_aes: bool = False) -> dict[str, object]:
    keys: dict[str, object] = {
        "dki": dki,
        "option": option,
        "ac": f"{dki:02X}" * 16,
        "smi": f"{dki + 1:02x}" * 16,
    }
    return keys | ({"aes_ac": f"{dki + 2:02x}" * 16, "aes_smi": f"{dki + 3:02X}" * 16} if has_aes else {})


def configuration(shards: int, cards: int) -> Settings:
    """A configuration with key sets of both options, with and without keys for AES, and cards of both methods.

    The account numbers are of every length.
    """
    pans = [f"4{number:0{7 + number % 12}d}" for number in range(cards)]
    other_status, other_cvr = Masked("0000000080", "0000000080"), Masked("0000000800", "0000000800")
    return {
        "shards": shards,
        "keys": [key_set(1, "A", has_aes=True), key_set(NO_AES, "B"), key_set(0xC8, "B", has_aes=True)],
        "cards": [
            {"pan": pan, "psn": f"{number % 3:02d}", "method": 1 + number // 4 % 2} for number, pan in enumerate(pans)
        ],
        "table": [
            table_row("3036", False, "00000000", status=1),
            table_row("3034", False, "01020304", tvr=other_status),
            table_row("3031", True, "FF80ABCD", cvr=other_cvr, most=100_000),
            table_row("3030", True, "00800000", most=500_000),
            table_row("3035", False, "00000000"),
        ],
    }


class Traffic:
    """Makes lines for the cards of a configuration. A host of its own says what the cards may tell."""

    def __init__(self, rng: random.Random, settings: Settings) -> None:
        self.rng = rng
        self.issuer = read_configuration(json.dumps(settings).encode())
        self.host = Host(self.issuer, lambda shard, record: None)
        self.asked: list[list[Asked]] = [[] for _ in self.host.rows]
        # The card of the line that is made.
        self.card = 0
        self.row = self.host.rows[0]
        self.kinds: dict[Callable[[], bytes], int] = {
            self.fresh: 40,
            self.repeated: 12,
            self.changed: 5,
            self.older: 8,
            self.forged: 5,
            self.of_nobody: 3,
            self.not_for_an_arqc: 3,
            self.of_no_key: 2,
            self.of_no_aes_key: 2,
            self.of_the_other_suite: 3,
            self.of_wrong_fields: 5,
            self.torn: 6,
            self.command: 10,
            self.status: 3,
            self.cut: 3,
            self.too_long: 1,
            self.noise: 2,
        }

    def line(self, shard: Optional[int] = None) -> bytes:
        """A line; if a shard is given, it asks nothing of another one."""
        cards = [number for number, row in enumerate(self.host.rows) if shard in (None, row.shard)]
        self.choose(self.rng.choice(cards))
        kind = self.rng.choices(list(self.kinds), list(self.kinds.values()))[0]
        line = kind().replace(b"\n", b" ")
        self.host.answer(line)
        return line

    def lines(self, count: int) -> bytes:
        """So many lines, with their newlines."""
        return b"".join(self.line() + b"\n" for _ in range(count))

    def certificates(self, count: int) -> bytes:
        """So many lines of a clearing file, with their newlines."""
        return b"".join(self.certificate() + b"\n" for _ in range(count))

    def choose(self, card: int) -> None:
        self.card = card
        self.row = self.host.rows[card]

    def suite(self) -> Suite:
        """The suite of the card: AES for half the cards of either method."""
        return Suite.AES if (self.card + self.card // 4) % 2 else Suite.TRIPLE_DES

    def sign(self, request: Request) -> Request:
        keys = self.issuer.known_keys_of(self.row.info, request.dki, request.suite)
        return signed(request, keys.cryptograms)

    def reported(self) -> tuple[int, int]:
        """What a request reports of its last transaction: register and count, true more often than not."""
        flight = self.row.scripts.flight
        register, count = self.rng.choice([(0, 0), flight, flight, flight]) if flight else (0, 0)
        return register, min(15, self.rng.randint(0, count + (self.rng.random() < 0.02)))

    def request(self, atc: int, suite: Optional[Suite] = None) -> Request:
        """A request of the card, of its suite or this one."""
        rng = self.rng
        suite = suite or self.suite()
        register, count = self.reported()
        dki = rng.choice([1, 1, 0xC8] if suite is Suite.AES else [1, 1, NO_AES, NO_AES, 0xC8])
        request = purchase(self.row.info.pan, atc, register, count, dki, suite)
        amount = rng.choice([*AMOUNTS, rng.randrange(10**12)])
        scripts = count << 4 | rng.choice([0, 0, 8])
        cvr = bytes([0xA0 | rng.randrange(16), rng.randrange(256), rng.randrange(256), scripts, 0])
        data = request.data[:3] + cvr + rng.randbytes(8) + request.data[16:19] + rng.randbytes(13)
        return self.sign(
            request._replace(
                psn=self.row.info.psn,
                amount=bytes.fromhex(f"{amount:012d}"),
                other=rng.choice([NOTHING, rng.randbytes(6)]),
                tvr=bytes([0, 0, 0, 0x80, rng.choice([0, 0, 0, 0x80])]),
                number=rng.randbytes(4),
                data=data,
                cid=0x80 | rng.randrange(64),
            )
        )

    def written(self, request: Request) -> bytes:
        """A line of the request, in one of several ways."""
        rng = self.rng
        way = rng.randrange(4)
        if way == 0 and request.psn == "00" and request.other == NOTHING:
            return long_line_of(request)
        if way == 1:
            return line_of(request)
        parts = [tlv(tag, value) for tag, value in field_objects(request)]
        parts += [tlv("9f33", rng.randbytes(3)), tlv("df8101", rng.randbytes(rng.randrange(200))), b"\0", b"\0\0"]
        rng.shuffle(parts)
        if way == 2:
            parts = [self.longer(part) for part in parts]
        return b"A " + self.cased(b"".join(parts).hex()).encode()

    def longer(self, part: bytes) -> bytes:
        """An object of one byte of tag with its length spelled longer than needed."""
        has_short_tag = len(part) > 2 and part[0] & 0x1F != 0x1F and part[0]
        if self.rng.random() < 0.3 and has_short_tag and part[1] < 0x80:
            return part[:1] + self.rng.choice([b"\x81", b"\x82\0"]) + part[1:]
        return part

    def cased(self, text: str) -> str:
        return "".join(digit.upper() if self.rng.random() < 0.5 else digit for digit in text)

    def ask(self, request: Request) -> bytes:
        line = self.written(request)
        self.asked[self.card].append(Asked(request, line))
        return line

    def fresh(self) -> bytes:
        highest = -1 if self.row.highest is None else self.row.highest
        step = self.rng.choices(list(STEPS), list(STEPS.values()))[0]
        return self.ask(self.request(min(65_535, highest + step)))

    def older(self) -> bytes:
        highest = self.row.highest or 0
        return self.ask(self.request(max(0, highest - self.rng.choice(LATE_STEPS))))

    def earlier(self) -> Asked:
        """A request that was asked before, mostly a late one."""
        asked = self.asked[self.card]
        if not asked:
            request = self.request(1)
            return Asked(request, line_of(request))
        return self.rng.choice(asked[-30:] if self.rng.random() < 0.8 else asked)

    def repeated(self) -> bytes:
        request, line = self.earlier()
        return line if self.rng.random() < 0.5 else self.written(request)

    def changed(self) -> bytes:
        request = self.earlier().request
        return self.written(self.sign(request._replace(number=self.rng.randbytes(4))))

    def forged(self) -> bytes:
        is_earlier = self.rng.random() < 0.5
        request = self.earlier().request if is_earlier else self.request(self.rng.randrange(65_536))
        return self.written(request._replace(cryptogram=flipped(self.rng, request.cryptogram)))

    def of_nobody(self) -> bytes:
        request = self.request(5)
        longer = request.pan + "0" if len(request.pan) < 19 else "12345678"
        pan = self.rng.choice(["5" + request.pan[1:], longer, ""])
        return self.written(request._replace(pan=pan) if pan else request._replace(psn="99"))

    def not_for_an_arqc(self) -> bytes:
        request = self.request(6)
        if self.rng.random() < 0.5:
            return self.written(self.sign(request._replace(cid=self.rng.choice([0x00, 0x40, 0xC0, 0x7F]))))
        data = request.data[:3] + bytes([self.rng.choice([0x90, 0x60, 0xE0, 0x20])]) + request.data[4:]
        return self.written(self.sign(request._replace(data=data)))

    def of_no_key(self) -> bytes:
        request = self.request(7)
        dki = bytes([self.rng.randrange(3, 200)])
        return self.written(request._replace(data=request.data[:2] + dki + request.data[3:]))

    def of_no_aes_key(self) -> bytes:
        """A request for AES on a key set that has no keys for it."""
        request = self.request(7, Suite.AES)
        return self.written(request._replace(data=request.data[:2] + bytes([NO_AES]) + request.data[3:]))

    def of_the_other_suite(self) -> bytes:
        """A request of the suite that isn't the card's: by its cryptogram, or by its identifier alone."""
        other = next(suite for suite in Suite if suite is not self.suite())
        if self.rng.random() < 0.5:
            return self.ask(self.request(self.row.highest or 1, other))
        request = self.request(8)
        return self.written(request._replace(data=request.data[:1] + bytes([other.value]) + request.data[2:]))

    def of_wrong_fields(self) -> bytes:
        """Some objects of a request missing, doubled, or of another length or content."""
        rng = self.rng
        parts = field_objects(self.request(8))
        for _ in range(rng.choice([1, 1, 2, 3])):
            at = rng.randrange(len(parts))
            tag, value = parts[at]
            way = rng.randrange(5)
            if way == 0 and len(parts) > 1:
                del parts[at]
            elif way == 1:
                parts.insert(rng.randrange(len(parts)), (tag, value))
            else:
                changed = flipped(rng, value) if value else value
                parts[at] = tag, [value[:-1], value + b"\0", changed][way - 2]
        return b"A " + b"".join(tlv(tag, value) for tag, value in parts).hex().encode()

    def torn(self) -> bytes:
        """Chip data with a byte changed, added or missing, or truncated."""
        rng = self.rng
        data = bytes.fromhex(self.written(self.request(9))[2:].decode())
        at = rng.randrange(len(data))
        added = data[:at] + rng.randbytes(1) + data[at:]
        ways = [data[:at], data[:at] + data[at + 1 :], added, flipped(rng, data)]
        return b"A " + rng.choice(ways).hex().encode()

    def name(self) -> str:
        info = self.row.info
        pan = "5" + info.pan[1:] if self.rng.random() < 0.05 else info.pan
        return f"{pan} {info.psn}"

    def command(self) -> bytes:
        rng = self.rng
        size = rng.choices([0, 4, 20, 64, 65, 124], [10, 30, 20, 10, 2, 1])[0]
        kind = rng.choices([0x84, 0x04, 0x80], [20, 5, 1])[0]
        instruction = rng.choices([0xDA, 0x16, 0x1E, 0x20], [20, 5, 5, 1])[0]
        command = bytes([kind, instruction]) + rng.randbytes(2 + size)
        return f"Q {self.name()} {self.cased(command.hex())}".encode()

    def status(self) -> bytes:
        return f"S {self.name()} {self.rng.choices(range(10), [30] + [1] * 9)[0]}".encode()

    def cut(self) -> bytes:
        line = self.rng.choice([self.command, self.status, self.repeated])()
        ending = self.rng.choice([b"", b"", b" ", b"0", b"g", b"\r"])
        return line[: self.rng.randrange(len(line) + 1)] + ending

    def certificate(self) -> bytes:
        """A line of a clearing file: mostly what a card sent at the end of a transaction that was asked for."""
        rng = self.rng
        self.choose(rng.randrange(len(self.host.rows)))
        if rng.random() < 0.1:
            others = [self.of_nobody, self.of_no_key, self.of_wrong_fields, self.torn, self.cut]
            return rng.choice([*others, self.too_long, self.noise])().replace(b"\n", b" ")
        request = self.earlier().request
        request = request._replace(cid=rng.choice([0x40, 0x40, 0x40, 0x00, 0x80, 0xC0]) | rng.randrange(64))
        changed = self.with_another_field(request) if rng.random() < 0.3 else request
        return self.written(self.sign(changed) if rng.random() < 0.9 else changed)

    def with_another_field(self, request: Request) -> Request:
        rng = self.rng
        others = [
            request._replace(amount=bytes(6)),
            request._replace(currency=b"\x08\x40"),
            request._replace(date=b"\x26\x01\x16"),
            request._replace(number=rng.randbytes(4)),
            request._replace(atc=rng.randrange(65_536)),
            request._replace(tvr=rng.randbytes(5)),
            request._replace(country=b"\0\0"),
        ]
        return rng.choice(others)

    def too_long(self) -> bytes:
        return b"A " + b"00" * self.rng.choice([1023, 1024, 1025, 1500]) + self.rng.choice([b"", b"0", b"x"])

    def noise(self) -> bytes:
        is_random = self.rng.random() < 0.7
        return self.rng.randbytes(self.rng.randrange(40)) if is_random else b"AQS 0"[: self.rng.randrange(6)]
