"""Advices and reversals: each is acknowledged once it is in the spool, and a reversed request is approved no more."""

import collections
import datetime
import hashlib
import json
from collections.abc import Callable, Iterable, Mapping
from typing import Any, NamedTuple, Optional, Protocol

from issuer_host.facts.request_lines import Torn, objects_of
from issuer_host.gateway import mapping
from issuer_host.gateway.dialect import Dialect
from issuer_host.gateway.message import Message, SEPARATOR

ADVICE, REVERSAL, LATE = "advice", "reversal", "late request"
# Objects of element 55 that a spool never has: track data, and data of a PIN. Templates, which may hold such, are left
# out as a whole.
NEVER_TAGS = frozenset(map(bytes.fromhex, ("56", "57", "99", "9f1f", "9f20", "9f6b")))
CONSTRUCTED = 0x20
# So many messages, and so many reversed requests, are known at least.
KNOWN = 100_000
# The element of a message's own time, which a repeat has anew.
TRANSMISSION = "7"
# Elements that tell a message from an earlier one with the same number (11): a repeat without one isn't known.
TELLING = ("12", "13", "37", "56", "90")
# In the data of the original (element 90 or 56) the digits of its number (11) come after its type.
ORIGINAL = {"1987": "90", "1993": "56"}
ORIGINAL_STAN = slice(4, 10)
# Of a partial reversal: the replacement amount of 1987, the function code of 1993.
REPLACEMENT, FUNCTION, PARTIAL = "95", "24", "401"


class Spool(Protocol):
    """Where objects are made durable, each once."""

    def add(self, said: dict[str, Any], then: Callable[[bool], object]) -> None:
        """Stores an object, and calls `then` once: with whether it is durable."""


def said_of(dialect: Dialect, message: Message, address: str, what: str, code: str) -> dict[str, Any]:
    """The object of a message: the elements that the dialect has stored, as texts; those of kind b in hexadecimal."""
    now = datetime.datetime.now(datetime.timezone.utc).isoformat(timespec="milliseconds").replace("+00:00", "Z")
    kept = {}
    for number in dialect.advices.elements:
        value = message.elements.get(number)
        if isinstance(value, str):
            kept[str(number)] = value
        elif value is not None:
            kept[str(number)] = (storable(value) if number == mapping.CHIP else value).hex()
    pan = pan_of(message)
    if pan and mapping.PAN in dialect.advices.elements:
        kept[str(mapping.PAN)] = pan
    return {
        "time": now,
        "what": what,
        "dialect": dialect.name,
        "from": address,
        "type": message.kind,
        "repeat": mapping.is_repeat(message.kind),
        "answer": code,
        "elements": kept,
    }


def storable(chip: bytes) -> bytes:
    """The objects of chip data that may be stored, up to one that is torn."""
    found = []
    try:
        for tag, value in objects_of(chip):
            if not tag[0] & CONSTRUCTED and tag not in NEVER_TAGS:
                size = len(value)
                length = bytes([size]) if size < 0x80 else b"\x81" + bytes([size]) if size < 0x100 else None
                found.append(tag + (length or b"\x82" + size.to_bytes(2, "big")) + value)
    except Torn:
        pass
    return b"".join(found)


def pan_of(message: Message) -> str:
    """The digits of a message's PAN, by element 2, 35 or tag 5A of 55; nothing if it has none."""
    pan, track, chip = (message.elements.get(it) for it in (mapping.PAN, mapping.TRACK_2, mapping.CHIP))
    if isinstance(pan, str):
        return pan
    if isinstance(track, str):
        return track.partition(SEPARATOR)[0]
    try:
        found = dict(objects_of(chip)) if isinstance(chip, bytes) else {}
    except Torn:
        return ""
    return found.get(b"\x5a", b"").hex().rstrip("f")


def is_message(said: Mapping[str, Any]) -> bool:
    """Whether an object of a spool is of a message: notices of accounts and damaged lines aren't."""
    return {"dialect", "what", "type", "elements"} <= said.keys()


class Marks(NamedTuple):
    """What tells an object from others: with its time of transmission, and without it."""

    exact: bytes
    loose: bytes


def marks_of(said: Mapping[str, Any]) -> Marks:
    elements = dict(said["elements"])
    named = [said["dialect"], said["what"], mapping.first_type(said["type"])]
    exact = digest([*named, sorted(elements.items())])
    elements.pop(TRANSMISSION, None)
    return Marks(exact, digest([*named, "", sorted(elements.items())]))


def digest(said: object) -> bytes:
    return hashlib.sha256(json.dumps(said).encode()).digest()[:16]


class Memory:
    """What was stored: which messages, and which requests were reversed."""

    def __init__(self, most: int = KNOWN) -> None:
        self.most = most
        self.known: collections.OrderedDict[bytes, None] = collections.OrderedDict()
        self.reversed: collections.OrderedDict[tuple[str, str, str], None] = collections.OrderedDict()

    def load(self, objects: Iterable[Mapping[str, Any]]) -> None:
        """Takes what was stored before. Objects that aren't of messages are passed over."""
        for said in objects:
            self.add(said)

    def knows(self, said: Mapping[str, Any]) -> bool:
        """Whether a message is one that was stored: a repeat may have another time of transmission."""
        if not is_message(said):
            return False
        exact, loose = marks_of(said)
        if exact in self.known:
            return True
        return said["repeat"] and loose in self.known and any(it in said["elements"] for it in TELLING)

    def add(self, said: Mapping[str, Any]) -> None:
        if not is_message(said):
            return
        for mark in marks_of(said):
            keep(self.known, mark, self.most)
        if said["what"] == REVERSAL and not is_partial(said["elements"]):
            for name in names_of_reversed(said["elements"]):
                keep(self.reversed, name, self.most)

    def was_reversed(self, message: Message, pan: str) -> bool:
        """Whether a request was reversed: by its PAN and element 37. Without that one, a repeat by element 11."""
        rrn, stan = (text_of(message, it) for it in (mapping.RRN, mapping.STAN))
        if is_telling(rrn):
            return (pan, "rrn", rrn) in self.reversed
        return mapping.is_repeat(message.kind) and (pan, "stan", stan) in self.reversed


def keep(held: "collections.OrderedDict[Any, None]", name: object, most: int) -> None:
    """Keeps a name among so many last ones."""
    held[name] = None
    held.move_to_end(name)
    if len(held) > 2 * most:
        held.popitem(last=False)


def text_of(message: Message, number: int) -> str:
    value = message.elements.get(number)
    return value.strip() if isinstance(value, str) else ""


def is_telling(rrn: str) -> bool:
    return bool(rrn.strip("0 "))


def is_partial(elements: Mapping[str, str]) -> bool:
    """Whether a reversal leaves a part of the amount."""
    return bool(elements.get(REPLACEMENT, "")[:12].strip("0 ")) or elements.get(FUNCTION) == PARTIAL


def names_of_reversed(elements: Mapping[str, str]) -> Iterable[tuple[str, str, str]]:
    """By what the request is known that a reversal is of."""
    pan, rrn = elements.get(str(mapping.PAN), ""), elements.get(str(mapping.RRN), "").strip()
    if is_telling(rrn):
        yield pan, "rrn", rrn
    original = next((elements[it] for it in ORIGINAL.values() if it in elements), "")
    yield pan, "stan", original[ORIGINAL_STAN] or elements.get(str(mapping.STAN), "")


class Advices:
    """Stores messages, and says how each is answered."""

    def __init__(self, spool: Spool, memory: Memory) -> None:
        self.spool, self.memory = spool, memory

    def acknowledge(
        self, dialect: Dialect, message: Message, address: str, then: Callable[[Optional[str]], object]
    ) -> None:
        """Stores an advice or a reversal. `then` gets element 39, or None where no response is sent."""
        rules, code = dialect.advices, dialect.advices.answer_to(message.kind) or ""
        what = REVERSAL if message.kind[1] == mapping.REVERSAL_CLASS else ADVICE
        said = said_of(dialect, message, address, what, code)
        self.store(said, lambda is_stored: then(code if is_stored else rules.not_stored))

    def note_late(self, dialect: Dialect, message: Message, address: str, then: Callable[[bool], object]) -> None:
        """Stores that a request came again after it was reversed."""
        code = mapping.REVERSED.code[dialect.edition]
        self.store(said_of(dialect, message, address, LATE, code), then)

    def store(self, said: dict[str, Any], then: Callable[[bool], object]) -> None:
        """Stores an object, unless it was stored before."""
        if self.memory.knows(said):
            then(True)
            return
        self.spool.add(said, then)
