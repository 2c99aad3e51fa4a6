"""An issuer's master key: its form, its parity and its check value."""
from __future__ import annotations

from issuer_host.configuration.weak_keys import weaknesses, with_odd_parity
from issuer_host.keys.ciphers import cmac, encrypt_cbc
from issuer_host.keys.uses import DES_BLOCK, KEY_BYTES, Suite

CHECK_BYTES = 3


class BadKey(Exception):
    """A key that can't be used, and why, without the key."""


def check_value(suite: Suite, key: bytes) -> str:
    """Returns a key's check value (KCV), six hexadecimal digits.

    Under triple DES it is the beginning of eight zero bytes enciphered, under AES that of the CMAC of a zero block
    (ANSI X9.24-1, annex A).
    """
    zeros = bytes(suite.block)
    whole = cmac(suite, key, zeros) if suite is Suite.AES else encrypt_cbc(suite, key, bytes(DES_BLOCK), zeros)
    return whole[:CHECK_BYTES].hex().upper()


def check_key(suite: Suite, key: bytes) -> None:
    """Refuses a key of another length, and a weak one."""
    if len(key) != KEY_BYTES:
        raise BadKey(f"the key has {len(key)} bytes, and a master key has {KEY_BYTES}")
    if len(set(key)) == 1:
        raise BadKey("all bytes of the key are equal")
    if suite is Suite.TRIPLE_DES:
        for why in weaknesses(key):
            raise BadKey(f"the key is weak: {why}")


def odd_bytes(key: bytes) -> int:
    """Counts a key's bytes of odd parity."""
    return sum(byte == odd for byte, odd in zip(key, with_odd_parity(key)))
