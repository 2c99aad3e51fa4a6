"""The suites: triple DES with the MAC of ISO/IEC 9797-1, and AES-128 with CMAC. A card's keys are of one of them.

What cards with AES compute is this project's profile (docs/formats/cryptograms-and-scripts.md).
"""
from enum import Enum

from oracle.aes import cmac
from oracle.ciphers import mac


class Suite(Enum):
    """A suite, by the common core identifier (CCI) that its cards write into the issuer application data."""

    TRIPLE_DES = 0xA5
    AES = 0xA6


IDENTIFIERS = {suite.value for suite in Suite}


def mac_of(suite: Suite, key: bytes, text: bytes) -> bytes:
    """The MAC of 8 bytes by which a suite's cryptograms and sealed commands are made."""
    return cmac(key, text)[:8] if suite is Suite.AES else mac(key, text)
