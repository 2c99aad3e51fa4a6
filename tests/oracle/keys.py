"""Keys of cards and of transactions.

They are those of EMV 4.3 Book 2, A1.3 and A1.4, for triple DES, and this project's profile for AES.
"""
import hashlib
from functools import lru_cache
from typing import NamedTuple

from oracle.aes import aes_encipher
from oracle.ciphers import tdes_encipher, xor
from oracle.suites import Suite


class CardKeys(NamedTuple):
    """A card's master keys for cryptograms and for secure messaging, and the suite that they are of."""

    suite: Suite
    cryptograms: bytes
    messages: bytes


def with_odd_parity(key: bytes) -> bytes:
    """Each byte with its least significant bit set so that the number of ones is odd."""
    return bytes(byte & 0xFE | (bin(byte >> 1).count("1") + 1) % 2 for byte in key)


def key_of_digits(master: bytes, digits: str) -> bytes:
    """What both options end in: sixteen digits enciphered, and their complement."""
    block = bytes.fromhex(digits)
    return with_odd_parity(tdes_encipher(master, block) + tdes_encipher(master, xor(block, b"\xff" * 8)))


def option_a(master: bytes, pan: str, psn: str) -> bytes:
    """A1.4.1: the rightmost 16 digits of PAN and PSN, with zeros on the left where there are fewer."""
    return key_of_digits(master, (pan + psn).rjust(16, "0")[-16:])


def decimal16(digest: bytes) -> str:
    """A1.4.2: the first 16 decimal digits of a digest; where there are fewer, A to F follow as 0 to 5."""
    nibbles = digest.hex()
    decimal = [nibble for nibble in nibbles if nibble.isdigit()]
    decimal += [str(int(nibble, 16) - 10) for nibble in nibbles if not nibble.isdigit()]
    return "".join(decimal[:16])


def option_b(master: bytes, pan: str, psn: str) -> bytes:
    """A1.4.2: as option A for a PAN of up to 16 digits; otherwise by the SHA-1 digest of PAN and PSN."""
    if len(pan) <= 16:
        return option_a(master, pan, psn)
    digits = pan + psn
    text = bytes.fromhex("0" * (len(digits) % 2) + digits)
    return key_of_digits(master, decimal16(hashlib.sha1(text).digest()))


def aes_master(master: bytes, pan: str, psn: str) -> bytes:
    """The digits of PAN and PSN with zeros on the left, 32 in all, enciphered. A key set's option doesn't matter."""
    return aes_encipher(master, bytes.fromhex((pan + psn).rjust(32, "0")))


@lru_cache(maxsize=1 << 16)
def card_key(option: str, master: bytes, pan: str, psn: str) -> bytes:
    """A card's master key for triple DES, by the option of its issuer's key set."""
    return (option_a if option == "A" else option_b)(master, pan, psn)


@lru_cache(maxsize=1 << 16)
def session_key(suite: Suite, master: bytes, diversifier: bytes) -> bytes:
    """For triple DES A1.3.1: eight bytes with F0 and with 0F in place of the third, enciphered.

    For AES the eight bytes and eight 00, enciphered.
    """
    if suite is Suite.AES:
        return aes_encipher(master, diversifier + bytes(8))
    head = diversifier[:2]
    tail = diversifier[3:]
    return tdes_encipher(master, head + b"\xf0" + tail) + tdes_encipher(master, head + b"\x0f" + tail)


def session_key_for_cryptograms(suite: Suite, master: bytes, atc: int) -> bytes:
    """The diversifier is the ATC and six 00 bytes."""
    return session_key(suite, master, atc.to_bytes(2, "big") + bytes(6))


def session_key_for_messages(suite: Suite, master: bytes, cryptogram: bytes) -> bytes:
    """The diversifier is the application cryptogram of the transaction's first GENERATE AC."""
    return session_key(suite, master, cryptogram)
