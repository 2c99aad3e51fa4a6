"""PIN changes: EMV 4.3 Book 3, 6.5.10.

The PIN block is that of ISO 9564-1, format 2, enciphered under a key of this project's profile
(docs/formats/cryptograms-and-scripts.md).
"""
import re

from oracle.ciphers import cbc_decipher, cbc_encipher
from oracle.configuration import Issuer
from oracle.keys import session_key_for_messages
from oracle.suites import Suite

# INS, P1 and P2 of a PIN change.
HEADER = bytes.fromhex("240002")


def pin_block(digits: str) -> bytes:
    """The nibble 2, the number of digits, the digits, and F up to sixteen nibbles."""
    return bytes.fromhex(f"2{len(digits):x}{digits}".ljust(16, "f"))


def pin_in(block: bytes) -> str | None:
    """The digits of a PIN block of format 2, or None."""
    found = re.fullmatch("2([4-9a-c])([0-9]{4,12})f*", block.hex())
    if not found or len(block) != 8 or len(found[2]) != int(found[1], 16):
        return None
    return found[2]


def pin_command(master: bytes, salt: bytes, digits: str) -> bytes:
    """The command that changes the PIN of a card with this master key for confidentiality.

    It has the salt, and the PIN block in CBC mode.
    """
    key = session_key_for_messages(Suite.TRIPLE_DES, master, salt)
    return b"\x84" + HEADER + salt + cbc_encipher(key, pin_block(digits))


def pin_line(issuer: Issuer, pan: str, psn: str, dki: int, salt: bytes, digits: str) -> str:
    """The request line that queues a PIN change for a card, by the key set of this DKI."""
    master = issuer.confidentiality_of(pan, psn, dki)
    if master is None:
        raise ValueError("no such card, no such key set, or a key set without a key for confidentiality")
    return f"Q {pan} {psn} {pin_command(master, salt, digits).hex()}"


def read_pin(master: bytes, command: bytes) -> str | None:
    """The digits of the PIN that a command sets, whatever its class, or None."""
    salt = command[4:12]
    enciphered = command[12:]
    if command[1:4] != HEADER or len(enciphered) != 16:
        return None
    text = cbc_decipher(session_key_for_messages(Suite.TRIPLE_DES, master, salt), enciphered)
    return pin_in(text) if text else None


def last_pin(master: bytes, commands: list[bytes]) -> str | None:
    """The digits of the PIN that the last PIN change of these commands sets, or None."""
    pins = [pin for pin in (read_pin(master, command) for command in commands) if pin]
    return pins[-1] if pins else None
