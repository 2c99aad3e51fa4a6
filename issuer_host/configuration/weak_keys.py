"""The weak and semi-weak keys of DES (NIST SP 800-67, section 3.4.2), and the halves of a double-length key."""
from __future__ import annotations

from collections.abc import Iterator

HALF = 8
# Each with odd parity.
WEAK = frozenset(
    bytes.fromhex(key)
    for key in (
        "0101010101010101",
        "FEFEFEFEFEFEFEFE",
        "E0E0E0E0F1F1F1F1",
        "1F1F1F1F0E0E0E0E",
        "011F011F010E010E",
        "1F011F010E010E01",
        "01E001E001F101F1",
        "E001E001F101F101",
        "01FE01FE01FE01FE",
        "FE01FE01FE01FE01",
        "1FE01FE00EF10EF1",
        "E01FE01FF10EF10E",
        "1FFE1FFE0EFE0EFE",
        "FE1FFE1FFE0EFE0E",
        "E0FEE0FEF1FEF1FE",
        "FEE0FEE0FEF1FEF1",
    )
)


def with_odd_parity(key: bytes) -> bytes:
    """Returns a key with the parity bits of DES set. The cipher doesn't use them: keys that differ in them are one."""
    return bytes(byte & 0xFE | (bin(byte >> 1).count("1") + 1) % 2 for byte in key)


def weaknesses(key: bytes) -> Iterator[str]:
    """Says what is weak about a double-length key of triple DES."""
    halves = [with_odd_parity(key[:HALF]), with_odd_parity(key[HALF:])]
    if halves[0] == halves[1]:
        yield "its halves are equal, so it is a key of single DES"
    for half, name in zip(halves, ("first", "second")):
        if half in WEAK:
            yield f"its {name} half is a weak key of DES"
