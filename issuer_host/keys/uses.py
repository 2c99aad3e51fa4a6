"""What an issuer's master keys are for, and under which cipher."""
from __future__ import annotations

from enum import Enum

DES_BLOCK, AES_BLOCK = 8, 16
KEY_BYTES = 16


class Suite(Enum):
    """A cipher, by its word in configurations and records."""

    TRIPLE_DES = "triple-des"
    AES = "aes"

    @property
    def block(self) -> int:
        return DES_BLOCK if self is Suite.TRIPLE_DES else AES_BLOCK


class Use(Enum):
    """What a master key is for: the member of a key set that has it."""

    CRYPTOGRAMS = "ac"
    INTEGRITY = "smi"
    CONFIDENTIALITY = "smc"
    AES_CRYPTOGRAMS = "aes_ac"
    AES_INTEGRITY = "aes_smi"

    @property
    def suite(self) -> Suite:
        return Suite.AES if self.value.startswith("aes_") else Suite.TRIPLE_DES
