"""Configurations whose keys are wrapped under a key in a token: their form, and the text that a host reads.

In place of `"ac": "32 DIGITS"` a key set has `"wrapped": {"ac": {"kwp": "48 DIGITS", "kcv": "6 DIGITS"}}`: the key
under AES key wrap with padding (RFC 5649), and its check value, so that no two keys can be exchanged.
"""
from __future__ import annotations

import json
import re
from collections.abc import Iterator, Sequence
from dataclasses import dataclass
from typing import Any, Optional

from issuer_host.configuration.members import CHECK_VALUE as CHECK
from issuer_host.configuration.members import KNOWN, WRAPPED
from issuer_host.configuration.members import WRAPPED_KEY as TEXT
from issuer_host.facts.refusal import Refusal
from issuer_host.keys.uses import KEY_BYTES, Use

Json = dict[str, Any]

WRAPPED_BYTES = KEY_BYTES + 8
MOST_DKI = 255
DIGITS = b"0123456789ABCDEF"
USES = {use.value: use for use in Use}
# What no host reads, and the text for it therefore lacks.
OF_OTHERS = ("partition",)


@dataclass(frozen=True)
class WrappedKey:
    """A wrapped key: its key set and use, the bytes that a token unwraps, and the check value of the key."""

    index: int
    dki: object
    use: Use
    text: bytes
    check_value: str

    @property
    def path(self) -> str:
        return f"keys[{self.index}].{WRAPPED}.{self.use.value}"

    @property
    def name(self) -> str:
        is_index = type(self.dki) is int and 0 <= self.dki <= MOST_DKI
        return f"{self.path} (dki {self.dki})" if is_index else self.path


def key_sets(configuration: Json) -> list[Json]:
    """Returns a configuration's key sets, as far as they are some. The program judges the remainder."""
    keys = configuration.get("keys")
    return [one for one in keys if isinstance(one, dict)] if isinstance(keys, list) else []


def has_wrapped_keys(configuration: Json) -> bool:
    return any(WRAPPED in one for one in key_sets(configuration))


def wrapped_keys(configuration: Json) -> list[WrappedKey]:
    """Returns the wrapped keys of a configuration. Raises Refusal at one of another form."""
    return [key for index, one in enumerate(key_sets(configuration)) for key in wrapped_in(index, one)]


def wrapped_in(index: int, key_set: Json) -> Iterator[WrappedKey]:
    members = key_set.get(WRAPPED, {})
    if not isinstance(members, dict):
        raise Refusal(f"keys[{index}].{WRAPPED} has to be an object: a member for each wrapped key")
    for name, value in members.items():
        at = f"keys[{index}].{WRAPPED}.{name}"
        if name not in USES:
            # (its name may be anything, a number of a card too)
            raise Refusal(f"keys[{index}].{WRAPPED} has a member that is no key: known are {', '.join(USES)}")
        if name in key_set:
            raise Refusal(f"keys[{index}] has {name} in clear and wrapped: remove one")
        given = value if isinstance(value, dict) else {}
        if set(given) != {TEXT, CHECK} or not has_digits(given[TEXT], 2 * WRAPPED_BYTES):
            raise Refusal(f"{at} has to have `{TEXT}`, {2 * WRAPPED_BYTES} hexadecimal digits, and `{CHECK}`, 6 digits")
        if not has_digits(given[CHECK], 6):
            raise Refusal(f"{at}.{CHECK} has to be the key's check value: 6 hexadecimal digits")
        yield WrappedKey(index, key_set.get("dki"), USES[name], bytes.fromhex(given[TEXT]), given[CHECK].upper())


def has_digits(value: object, count: int) -> bool:
    return isinstance(value, str) and re.fullmatch(f"[0-9A-Fa-f]{{{count}}}", value, re.ASCII) is not None


def key_set_of(configuration: Json, dki: int, option: Optional[str]) -> Json:
    """Returns the key set with this DKI; a new one, with this option, if there is none."""
    found = [one for one in key_sets(configuration) if one.get("dki") == dki]
    if not found and option is not None:
        found = [{"dki": dki, "option": option}]
        configuration.setdefault("keys", []).append(found[0])
    if len(found) != 1:
        raise Refusal(f"{len(found)} key sets have the DKI {dki}: --option A or B makes one where there is none")
    return found[0]


def with_key(configuration: Json, key_set: Json, use: Use, wrapped: bytes, kcv: str) -> Json:
    """Returns a configuration in which a key of one of its key sets is this wrapped one."""
    key_set.pop(use.value, None)
    key_set.setdefault(WRAPPED, {})[use.value] = {TEXT: wrapped.hex().upper(), CHECK: kcv}
    return configuration


def text_with(configuration: Json, keys: Sequence[tuple[WrappedKey, bytearray]]) -> bytearray:
    """Returns the text that a host reads, with these keys in clear.

    Each key is written digit by digit into its place, so that no other copy of the text has it. Wipe it after use.
    """
    held: Json = {name: value for name, value in configuration.items() if name in KNOWN[""] and name not in OF_OTHERS}
    held["keys"] = [{name: one[name] for name in one if name != WRAPPED} for one in key_sets(configuration)]
    places = []
    for number, (wrapped, _) in enumerate(keys):
        places.append(f"key number {number:021}")
        held["keys"][wrapped.index][wrapped.use.value] = places[-1]
    text = bytearray(json.dumps(held).encode())
    for place, (_, key) in zip(places, keys):
        at = text.index(place.encode())
        for number, byte in enumerate(key):
            text[at + 2 * number] = DIGITS[byte >> 4]
            text[at + 2 * number + 1] = DIGITS[byte & 15]
    return text


def wipe(buffer: bytearray) -> None:
    """Overwrites a buffer in place."""
    for at in range(len(buffer)):
        buffer[at] = 0
