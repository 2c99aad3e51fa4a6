"""A key from the components of its custodians: their exclusive or, which no custodian knows."""
from __future__ import annotations

from collections.abc import Sequence
from dataclasses import dataclass
from functools import reduce

from issuer_host.configuration.weak_keys import with_odd_parity
from issuer_host.keys.master_key import BadKey, check_key, check_value, odd_bytes
from issuer_host.keys.uses import KEY_BYTES, Suite

FEWEST, MOST = 2, 5
# How many bytes a protection key of key blocks has.
PROTECTION_LENGTHS = {Suite.TRIPLE_DES: (16, 24), Suite.AES: (16, 24, 32)}


@dataclass(frozen=True)
class Component:
    """A custodian's part of a key."""

    custodian: str
    value: bytes

    def check_value(self, suite: Suite) -> str:
        return check_value(suite, self.value)


def component_of(custodian: str, digits: str, lengths: Sequence[int] = (KEY_BYTES,)) -> Component:
    """Returns the component that a custodian typed: hexadecimal digits of these lengths, with blanks or without."""
    joined = "".join(digits.split())
    try:
        value = bytes.fromhex(joined)
    except ValueError:
        raise BadKey("a component has hexadecimal digits alone") from None
    if len(value) not in lengths:
        wanted = " or ".join(str(2 * length) for length in lengths)
        raise BadKey(f"the component has {len(joined)} digits, and has to have {wanted}")
    if len(set(value)) == 1:
        raise BadKey("all bytes of the component are equal")
    return Component(custodian, value)


def joined_key(suite: Suite, components: Sequence[Component], may_set_parity: bool = False) -> bytes:
    """Joins a key's components. Raises BadKey if they make no key that may be used.

    An even number of components of odd parity makes a key whose bytes all have even parity: they get odd parity, as
    security modules do. A key of mixed parity has a wrong digit in a component, or components without parity.
    """
    if not FEWEST <= len(components) <= MOST:
        raise BadKey(f"a key has {FEWEST} to {MOST} components, not {len(components)}")
    values = [component.value for component in components]
    if len(set(values)) < len(values):
        raise BadKey("two components are equal: their exclusive or is nothing")
    key = whole_of(components)
    if suite is Suite.TRIPLE_DES:
        odd = odd_bytes(key)
        if odd not in (0, KEY_BYTES) and not may_set_parity:
            raise BadKey(
                f"{odd} of the key's {KEY_BYTES} bytes have odd parity: a digit of a component is wrong, or the"
                " components have no parity; then say --set-parity"
            )
        key = with_odd_parity(key)
    check_key(suite, key)
    return key


def whole_of(components: Sequence[Component]) -> bytes:
    return reduce(exclusive_or, (component.value for component in components))


def lacks_parity(suite: Suite, components: Sequence[Component]) -> bool:
    """Whether the key that components make for triple DES gets odd parity, which their exclusive or lacks."""
    return suite is Suite.TRIPLE_DES and odd_bytes(whole_of(components)) < KEY_BYTES


def exclusive_or(one: bytes, other: bytes) -> bytes:
    return bytes(left ^ right for left, right in zip(one, other))


def protection_key(components: Sequence[Component]) -> bytes:
    """Joins the components of a key under which key blocks are, of 16, 24 or 32 bytes.

    Its parity is as the components have it: the cipher doesn't use it.
    """
    values = [component.value for component in components]
    if not FEWEST <= len(values) <= MOST or len({len(value) for value in values}) != 1:
        raise BadKey(f"a protection key has {FEWEST} to {MOST} components of one length")
    if len(set(values)) < len(values):
        raise BadKey("two components are equal: their exclusive or is nothing")
    return reduce(exclusive_or, values)
