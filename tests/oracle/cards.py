"""What issuer and card compute for a transaction: cryptograms, issuer authentication and sealed script commands.

For triple DES it is that of EMV 4.3 Book 2, 8 and 9; for AES this project's profile
(docs/formats/cryptograms-and-scripts.md).
"""
from functools import lru_cache

from oracle.aes import aes_encipher
from oracle.chip_data import Request
from oracle.ciphers import tdes_encipher, xor
from oracle.keys import CardKeys, session_key_for_cryptograms, session_key_for_messages
from oracle.suites import Suite, mac_of


@lru_cache(maxsize=1 << 16)
def cryptogram_of(suite: Suite, master: bytes, atc: int, text: bytes) -> bytes:
    return mac_of(suite, session_key_for_cryptograms(suite, master, atc), text)


def application_cryptogram(master: bytes, request: Request) -> bytes:
    """EMV 4.3 Book 2, 8.1.2, under the card's master key for cryptograms, in the request's suite."""
    return cryptogram_of(request.suite, master, request.atc, request.cryptogram_input())


@lru_cache(maxsize=1 << 16)
def arpc_method_1(suite: Suite, session: bytes, cryptogram: bytes, code: bytes) -> bytes:
    """EMV 4.3 Book 2, 8.2.1: the cryptogram xor the code, enciphered.

    For AES eight 00 stand behind it, and the first eight bytes count.
    """
    block = xor(cryptogram, code + bytes(6))
    return aes_encipher(session, block + bytes(8))[:8] if suite is Suite.AES else tdes_encipher(session, block)


@lru_cache(maxsize=1 << 16)
def arpc_method_2(suite: Suite, session: bytes, cryptogram: bytes, csu: bytes) -> bytes:
    """EMV 4.3 Book 2, 8.2.2, without proprietary data."""
    return mac_of(suite, session, cryptogram + csu)[:4]


def issuer_data(suite: Suite, method: int, session: bytes, cryptogram: bytes, code: bytes, csu: bytes) -> bytes:
    """The value of tag 91, issuer authentication data."""
    if method == 1:
        return arpc_method_1(suite, session, cryptogram, code) + code
    return arpc_method_2(suite, session, cryptogram, csu) + csu


@lru_cache(maxsize=1 << 16)
def seal(suite: Suite, key: bytes, chain: bytes, command: bytes) -> tuple[bytes, bytes]:
    """A command with its MAC (EMV 4.3 Book 2, 9.2, format 2), and the next chain, which is the MAC.

    Lc counts data and MAC, and the MAC begins with the chain.
    """
    text = command[:4] + bytes([len(command) - 4 + 8]) + command[4:]
    code = mac_of(suite, key, chain + text)
    return text + code, code


def tlv(tag: str, value: bytes) -> bytes:
    """A BER-TLV object with the shortest length."""
    size = len(value)
    length = [size] if size < 0x80 else [0x81, size] if size < 0x100 else [0x82, size >> 8, size & 0xFF]
    return bytes.fromhex(tag) + bytes(length) + value


def template(suite: Suite, key: bytes, cryptogram: bytes, first: int, commands: list[bytes]) -> bytes:
    """Tag 72 (EMV 4.3 Book 3, Annex A): a script.

    It has the script identifier, the number of the first command, then the sealed commands.
    """
    value = tlv("9f18", first.to_bytes(4, "big"))
    chain = cryptogram
    for command in commands:
        sealed, chain = seal(suite, key, chain, command)
        value += tlv("86", sealed)
    return tlv("72", value)


def fitting(commands: list[bytes]) -> list[bytes]:
    """The longest front of the commands whose template has at most 128 bytes."""
    room = 128 - 2 - 7
    count = 0
    for command in commands:
        room -= len(command) + 11
        if room < 0:
            break
        count += 1
    return commands[:count]


def reply_bytes(
    method: int, keys: CardKeys, request: Request, code: bytes, csu: bytes, first: int, batch: list[bytes]
) -> bytes:
    """The bytes for the card: response code, issuer authentication data, and the template where there is a command."""
    session = session_key_for_cryptograms(keys.suite, keys.cryptograms, request.atc)
    text = tlv("8a", code) + tlv("91", issuer_data(keys.suite, method, session, request.cryptogram, code, csu))
    if batch:
        key = session_key_for_messages(keys.suite, keys.messages, request.cryptogram)
        text += template(keys.suite, key, request.cryptogram, first, batch)
    return text
