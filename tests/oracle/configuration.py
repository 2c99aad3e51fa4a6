"""The configuration: JSON (RFC 8259) with the limits of docs/formats/configuration.md, and its first broken place."""
import json
import re
from collections.abc import Callable
from typing import Any, NamedTuple, NoReturn, TypeVar

from oracle.chip_data import Request
from oracle.keys import CardKeys, aes_master, card_key
from oracle.suites import Suite

LIMIT = 4_194_304
LEVELS = 127

Named = TypeVar("Named")


class Fault(Exception):
    """The part and the index of the first broken place."""


class NotJson(ValueError):
    pass


class KeySet(NamedTuple):
    """An issuer's master keys for cryptograms and for secure messaging.

    They are those for triple DES, and those for AES if it has some; and the one for confidentiality, if it has one.
    """

    dki: int
    option: str
    triple_des: tuple[bytes, bytes]
    aes: tuple[bytes, bytes] | None = None
    confidentiality: bytes | None = None


class CardInfo(NamedTuple):
    pan: str
    psn: str
    method: int


class TableRow(NamedTuple):
    tvr_mask: bytes
    tvr_value: bytes
    cvr_mask: bytes
    cvr_value: bytes
    least: int
    most: int
    status: int | None
    code: bytes
    approve: bool
    csu: bytes

    def takes(self, status: int, request: Request) -> bool:
        return (
            masked(request.tvr, self.tvr_mask) == self.tvr_value
            and masked(request.cvr, self.cvr_mask) == self.cvr_value
            and self.least <= request.amount_value <= self.most
            and self.status in (None, status)
        )


class Issuer:
    def __init__(self, shards: int, key_sets: list[KeySet], cards: list[CardInfo], table: list[TableRow]) -> None:
        self.shards = shards
        self.key_sets = {key_set.dki: key_set for key_set in key_sets}
        self.cards = cards
        self.table = table

    def keys_of(self, card: CardInfo, dki: int, suite: Suite) -> CardKeys | None:
        """A card's master keys under the key set of this DKI, or None if no key set has it with keys of the suite."""
        key_set = self.key_sets.get(dki)
        if key_set is None:
            return None
        if suite is Suite.AES:
            if key_set.aes is None:
                return None
            return CardKeys(suite, *(aes_master(master, card.pan, card.psn) for master in key_set.aes))
        return CardKeys(suite, *(card_key(key_set.option, master, card.pan, card.psn) for master in key_set.triple_des))

    def known_keys_of(self, card: CardInfo, dki: int, suite: Suite) -> CardKeys:
        """A card's master keys under a key set that has them."""
        keys = self.keys_of(card, dki, suite)
        if keys is None:
            raise KeyError(f"no key set {dki} has keys of {suite}")
        return keys

    def confidentiality_of(self, pan: str, psn: str, dki: int) -> bytes | None:
        """The master key for confidentiality of a card under the key set of this DKI.

        None if there is no such card, or no such key set with a key for confidentiality.
        """
        key_set = self.key_sets.get(dki)
        if key_set is None or key_set.confidentiality is None or not any(card[:2] == (pan, psn) for card in self.cards):
            return None
        return card_key(key_set.option, key_set.confidentiality, pan, psn)

    def decide(self, status: int, request: Request) -> TableRow:
        return next(row for row in self.table if row.takes(status, request))


def masked(value: bytes, mask: bytes) -> bytes:
    return bytes(byte & bit for byte, bit in zip(value, mask))


def is_too_deep(text: str) -> bool:
    """Whether lists and objects stand within each other in more levels than are taken."""
    depth = 0
    for token in re.findall(r'"(?:[^"\\]|\\.)*"|[\[\]{}]', text, re.DOTALL):
        depth += {"[": 1, "{": 1, "]": -1, "}": -1}.get(token, 0)
        if depth > LEVELS:
            return True
    return False


def read_number(text: str) -> int | float:
    """An unsigned whole number of 64 bits as `int`, any other number as `float`. One too great for a float is none."""
    if text.isdigit() and len(text) < 21 and int(text) < 1 << 64:
        return int(text)
    number = float(text)
    if number in (float("inf"), float("-inf")):
        raise NotJson
    return number


def no_constant(_: str) -> NoReturn:
    raise NotJson


def whole_text(text: str) -> str:
    """A text, which may not have half a character."""
    if any("\ud800" <= character <= "\udfff" for character in text):
        raise NotJson
    return text


def members(pairs: list[tuple[str, Any]]) -> dict[str, Any]:
    """An object's members. Of one that stands twice the last counts, but all of them have to be JSON."""
    for name, value in pairs:
        whole_text(name)
        check_texts(value)
    return dict(pairs)


def check_texts(value: object) -> None:
    """The texts in a value, but for those in objects, which were looked at already."""
    if isinstance(value, str):
        whole_text(value)
    elif isinstance(value, list):
        for item in value:
            check_texts(item)


def read_json(data: bytes) -> object:
    try:
        text = data.decode()
        if is_too_deep(text):
            raise NotJson
        value = json.loads(
            text, parse_int=read_number, parse_float=read_number, parse_constant=no_constant, object_pairs_hook=members
        )
    except (ValueError, RecursionError) as fault:
        raise Fault(1, 0) from fault
    try:
        check_texts(value)
    except NotJson as fault:
        raise Fault(1, 0) from fault
    return value


class Broken(Exception):
    pass


def number(item: dict[str, Any], name: str, least: int, most: int) -> int:
    value = item.get(name)
    if type(value) is not int or not least <= value <= most:
        raise Broken
    return value


def matching(item: dict[str, Any], name: str, pattern: str) -> str:
    value = item.get(name)
    if not isinstance(value, str) or not re.fullmatch(pattern, value, re.ASCII):
        raise Broken
    return value


def hexadecimal(item: dict[str, Any], name: str, digits: int) -> bytes:
    return bytes.fromhex(matching(item, name, f"[0-9a-fA-F]{{{digits}}}"))


def read_key_set(item: dict[str, Any]) -> KeySet:
    dki = number(item, "dki", 0, 255)
    option = matching(item, "option", "[AB]")
    triple_des = hexadecimal(item, "ac", 32), hexadecimal(item, "smi", 32)
    has_aes = "aes_ac" in item or "aes_smi" in item
    aes = (hexadecimal(item, "aes_ac", 32), hexadecimal(item, "aes_smi", 32)) if has_aes else None
    confidentiality = hexadecimal(item, "smc", 32) if "smc" in item else None
    return KeySet(dki, option, triple_des, aes, confidentiality)


def read_card(item: dict[str, Any]) -> CardInfo:
    return CardInfo(
        matching(item, "pan", "[0-9]{8,19}"), matching(item, "psn", "[0-9]{2}"), number(item, "method", 1, 2)
    )


MOST = 999_999_999_999


def read_row(item: dict[str, Any]) -> TableRow:
    tvr_mask = hexadecimal(item, "tvr_mask", 10)
    tvr_value = hexadecimal(item, "tvr_value", 10)
    cvr_mask = hexadecimal(item, "cvr_mask", 10)
    cvr_value = hexadecimal(item, "cvr_value", 10)
    least = number(item, "least", 0, MOST)
    most = number(item, "most", 0, MOST)
    if "status" not in item:
        raise Broken
    status = None if item["status"] is None else number(item, "status", 0, 9)
    code = hexadecimal(item, "arc", 4)
    csu = hexadecimal(item, "csu", 8)
    approve = item.get("approve")
    if not isinstance(approve, bool) or approves(csu) != approve:
        raise Broken
    return TableRow(tvr_mask, tvr_value, cvr_mask, cvr_value, least, most, status, code, approve, csu)


def approves(csu: bytes) -> bool:
    """Byte 2 bit 8 of a card status update."""
    return csu[1] & 0x80 != 0


def read_list(
    root: dict[str, Any],
    part: int,
    name: str,
    most: int,
    read: Callable[[dict[str, Any]], Named],
    name_of: Callable[[Named], object],
) -> list[Named]:
    """The elements of a list, no two of one name.

    The first that is broken or repeats an earlier one's name is the fault.
    """
    items = root.get(name)
    if not isinstance(items, list) or not 1 <= len(items) <= most:
        raise Fault(part, 0)
    result: list[Named] = []
    names: set[object] = set()
    for index, item in enumerate(items, 1):
        try:
            if not isinstance(item, dict):
                raise Broken
            result.append(read(item))
        except Broken as fault:
            raise Fault(part, index) from fault
        if name_of(result[-1]) in names:
            raise Fault(part, index)
        names.add(name_of(result[-1]))
    return result


def dki_of(key_set: KeySet) -> int:
    return key_set.dki


def name_of_card(card: CardInfo) -> tuple[str, str]:
    return card.pan, card.psn


def takes_all(row: TableRow) -> bool:
    return all(value == bytes(5) for value in row[:4]) and row[4:7] == (0, MOST, None)


def read_configuration(data: bytes) -> Issuer:
    if len(data) > LIMIT:
        raise Fault(1, 0)
    root = read_json(data)
    if not isinstance(root, dict):
        raise Fault(1, 0)
    try:
        shards = number(root, "shards", 1, 16)
    except Broken as fault:
        raise Fault(2, 0) from fault
    key_sets: list[KeySet] = read_list(root, 3, "keys", 16, read_key_set, dki_of)
    cards: list[CardInfo] = read_list(root, 4, "cards", 4096, read_card, name_of_card)
    table: list[TableRow] = read_list(root, 5, "table", 64, read_row, id)
    if not takes_all(table[-1]):
        raise Fault(5, len(table))
    return Issuer(shards, key_sets, cards, table)
