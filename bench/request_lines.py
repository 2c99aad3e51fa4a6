"""A configuration of many cards over shards, and request lines with their right cryptograms.

The cards have keys for triple DES or for AES. It wants Python's package `cryptography`.
"""
import json
import warnings
from typing import Any, Protocol

warnings.filterwarnings("ignore")
from cryptography.hazmat.primitives.ciphers import Cipher, modes
from cryptography.hazmat.primitives.ciphers.algorithms import AES
from cryptography.hazmat.primitives.cmac import CMAC

try:
    from cryptography.hazmat.decrepit.ciphers.algorithms import TripleDES
except ImportError:
    from cryptography.hazmat.primitives.ciphers.algorithms import TripleDES

MASTER = bytes(range(16))
AMOUNT = 12_345


class Cards(Protocol):
    """The keys and cryptograms of a suite's cards."""

    # The cryptogram version's byte in the issuer application data, as hexadecimal digits.
    identifier: str

    def card_key(self, pan: str) -> bytes:
        """The card's master key, of the issuer's key `MASTER`."""

    def session_key(self, key: bytes, counter: int) -> bytes:
        """The session key of an ATC."""

    def mac(self, key: bytes, text: bytes) -> bytes:
        """The eight bytes of a cryptogram."""


class TripleDesCards:
    """Keys and cryptograms of cards with keys for triple DES (EMV 4.3 Book 2, A1.2 to A1.4)."""

    identifier = "A5"

    def encipher(self, key: bytes, block: bytes) -> bytes:
        enciphered: bytes = Cipher(TripleDES(key), modes.ECB()).encryptor().update(block)
        return enciphered

    def mac(self, key: bytes, text: bytes) -> bytes:
        text += b"\x80"
        text += b"\0" * (-len(text) % 8)
        chained = Cipher(TripleDES(key[:8] * 3), modes.CBC(b"\0" * 8)).encryptor().update(text[:-8])
        return self.encipher(key, bytes(a ^ b for a, b in zip(chained[-8:], text[-8:])))

    def card_key(self, pan: str) -> bytes:
        digits = bytes.fromhex((pan + "00")[-16:])
        return odd(self.encipher(MASTER, digits) + self.encipher(MASTER, bytes(byte ^ 0xFF for byte in digits)))

    def session_key(self, key: bytes, counter: int) -> bytes:
        atc = counter.to_bytes(2, "big")
        return b"".join(self.encipher(key, atc + bytes([byte, 0, 0, 0, 0, 0])) for byte in (0xF0, 0x0F))


class AesCards:
    """Keys and cryptograms of cards with keys for AES (docs/formats/cryptograms-and-scripts.md)."""

    identifier = "A6"

    def encipher(self, key: bytes, block: bytes) -> bytes:
        enciphered: bytes = Cipher(AES(key), modes.ECB()).encryptor().update(block)
        return enciphered

    def mac(self, key: bytes, text: bytes) -> bytes:
        cmac = CMAC(AES(key))
        cmac.update(text)
        whole: bytes = cmac.finalize()
        return whole[:8]

    def card_key(self, pan: str) -> bytes:
        return self.encipher(MASTER, bytes.fromhex((pan + "00").zfill(32)))

    def session_key(self, key: bytes, counter: int) -> bytes:
        return self.encipher(key, counter.to_bytes(2, "big") + bytes(14))


TRIPLE_DES, OF_AES = TripleDesCards(), AesCards()
# The suites of cards that are measured, by the name that is printed.
SUITES: dict[str, Cards] = {"triple DES": TRIPLE_DES, "AES": OF_AES}


def odd(key: bytes) -> bytes:
    """The key with the odd parity of DES."""
    return bytes((byte & 0xFE) | (bin(byte >> 1).count("1") & 1 ^ 1) for byte in key)


def line(suite: Cards, pan: str, key: bytes, counter: int, amount: int = AMOUNT) -> str:
    data = f"0F{suite.identifier}01A00000000000000000000000000F000000000000000000000000000000"
    text = f"{amount:012d}000000000000027600000080000978260115001A2B3C4D3900{counter:04X}{data}"
    cryptogram = suite.mac(suite.session_key(key, counter), bytes.fromhex(text)).hex().upper()
    return (
        f"A 5A08{pan}9F2608{cryptogram}9F2701809F1020{data}9F37041A2B3C4D9F3602{counter:04X}950500000080009A03260115"
        f"9C01009F0206{amount:012d}5F2A020978820239009F1A0202769F3303E0F8C89F34031E03009F3501229F1E0831323334353637"
        "388407A00000000410109F090200029F41040000012300\n"
    )


def pan_of(card: int) -> str:
    return f"4{card:015d}"


def row(most: int, approve: bool) -> dict[str, Any]:
    zeros = "0000000000"
    return {
        "tvr_mask": zeros,
        "tvr_value": zeros,
        "cvr_mask": zeros,
        "cvr_value": zeros,
        "least": 0,
        "most": most,
        "status": None,
        "arc": "3030" if approve else "3035",
        "approve": approve,
        "csu": "00800000" if approve else "00000000",
    }


def configuration(cards: int, shards: int, suite: Cards = TRIPLE_DES) -> str:
    """One key set, with keys for AES if the cards want them, so many cards, and a table that approves up to 500000."""
    names = ("ac", "smi", "aes_ac", "aes_smi") if suite is OF_AES else ("ac", "smi")
    return json.dumps(
        {
            "shards": shards,
            "keys": [{"dki": 1, "option": "A"} | dict.fromkeys(names, MASTER.hex())],
            "cards": [{"pan": pan_of(card), "psn": "00", "method": 1 + card % 2} for card in range(cards)],
            "table": [row(500_000, True), row(999_999_999_999, False)],
        }
    )


def distinct_lines(cards: int, counters: int, suite: Cards = TRIPLE_DES) -> list[str]:
    """A line for each counter of each card, card after card."""
    pans = [pan_of(card) for card in range(cards)]
    keys = [suite.card_key(pan) for pan in pans]
    return [line(suite, pans[card], keys[card], counter) for counter in range(counters) for card in range(cards)]
