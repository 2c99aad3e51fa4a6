"""Key blocks: a key under a key block protection key, with a header that says what it is for (ANSI X9.143, TR-31).

Version B has triple DES throughout, version D has AES, each with keys derived by CMAC. Version C, with keys by variants
and a MAC of four bytes, is read where it is asked for. A block is text: header, optional blocks, the enciphered key and
the MAC in hexadecimal.
"""
from __future__ import annotations

import hmac
import re
from collections.abc import Callable
from dataclasses import dataclass

from issuer_host.keys.ciphers import cmac, decrypt_cbc, encrypt_cbc
from issuer_host.keys.master_key import CHECK_BYTES, BadKey
from issuer_host.keys.uses import DES_BLOCK, KEY_BYTES, Suite, Use

# (its version number begins with a `c` if the block has a component)
HEADER = re.compile(r"([A-Z])([0-9]{4})([A-Z0-9]{2})([A-Z])([A-Z])([A-Z0-9c][A-Z0-9])([A-Z])([0-9]{2})00")
HEADER_LENGTH = 16
LENGTH_BYTES = 2
OPTIONAL_HEAD = 4
MOST_LENGTH = 9_992
ENCRYPTION, AUTHENTICATION = b"\x00\x00", b"\x00\x01"
VARIANTS = {ENCRYPTION: 0x45, AUTHENTICATION: 0x4D}
# A key block protection key's words in the derivation data, by the version's cipher and the key's length.
DERIVED = {
    (Suite.TRIPLE_DES, 16): b"\x00\x00",
    (Suite.TRIPLE_DES, 24): b"\x00\x01",
    (Suite.AES, 16): b"\x00\x02",
    (Suite.AES, 24): b"\x00\x03",
    (Suite.AES, 32): b"\x00\x04",
}
# A master key's usage by what it is for: E0 application cryptograms, E1 confidentiality, E2 integrity.
USAGES = {
    Use.CRYPTOGRAMS: "E0",
    Use.AES_CRYPTOGRAMS: "E0",
    Use.CONFIDENTIALITY: "E1",
    Use.INTEGRITY: "E2",
    Use.AES_INTEGRITY: "E2",
}
ALGORITHMS = {Suite.TRIPLE_DES: "T", Suite.AES: "A"}
# A master key derives other keys; some security modules say that nothing restricts it.
MODES = ("X", "N")
COMPONENT = "c"
# The optional block with the key's check value, and its word for a value by CMAC.
CHECK_VALUE, BY_CMAC = "KC", "01"


@dataclass(frozen=True)
class Version:
    """How a version of key blocks enciphers and authenticates."""

    letter: str
    suite: Suite
    mac_bytes: int
    derives: bool


VERSIONS = {
    "B": Version("B", Suite.TRIPLE_DES, 8, True),
    "C": Version("C", Suite.TRIPLE_DES, 4, False),
    "D": Version("D", Suite.AES, 16, True),
}


@dataclass(frozen=True)
class Header:
    """What a key block says of its key."""

    version: str
    usage: str
    algorithm: str
    mode: str
    number: str = "00"
    exportability: str = "N"
    optional: tuple[tuple[str, str], ...] = ()

    def text(self, length: int) -> str:
        blocks = "".join(f"{name}{len(data) + OPTIONAL_HEAD:02X}{data}" for name, data in self.optional)
        fixed = f"{self.version}{length:04}{self.usage}{self.algorithm}{self.mode}{self.number}{self.exportability}"
        return f"{fixed}{len(self.optional):02}00{blocks}"


def build(header: Header, protection_key: bytes, key: bytes, fill: Callable[[int], bytes]) -> str:
    """Returns the key block of a key. `fill` returns so many random bytes.

    The lengths of the optional blocks, if there are some, have to be a multiple of the cipher's block.
    """
    version = version_of(header.version)
    clear = (8 * len(key)).to_bytes(LENGTH_BYTES, "big") + key
    clear += fill(-len(clear) % version.suite.block)
    plain_length = len(header.text(0))
    if (plain_length - HEADER_LENGTH) % version.suite.block:
        raise BadKey("the optional blocks have no length that the cipher has: add a block PB")
    text = header.text(plain_length + 2 * (len(clear) + version.mac_bytes))
    encrypting, authenticating = (derived_key(version, protection_key, use) for use in (ENCRYPTION, AUTHENTICATION))
    if version.derives:
        mac = cmac(version.suite, authenticating, text.encode() + clear)
        sealed = encrypt_cbc(version.suite, encrypting, mac, clear)
    else:
        sealed = encrypt_cbc(version.suite, encrypting, text[:DES_BLOCK].encode(), clear)
        mac = chained_mac(authenticating, text.encode() + sealed)[: version.mac_bytes]
    return f"{text}{sealed.hex().upper()}{mac.hex().upper()}"


def open_block(block: str, protection_key: bytes) -> tuple[Header, bytes]:
    """Returns the header and the key of a key block. Raises BadKey if it is none, or was changed."""
    header, length = header_of(block)
    version = version_of(header.version)
    digits = block[length:]
    if not re.fullmatch("([0-9A-Fa-f]{2})+", digits, re.ASCII):
        raise BadKey("the key block's enciphered part has hexadecimal digits alone, two a byte")
    data = bytes.fromhex(digits)
    sealed, mac = data[: -version.mac_bytes], data[-version.mac_bytes :]
    if not sealed or len(sealed) % version.suite.block:
        raise BadKey("the key block's enciphered part has no length that the cipher has")
    encrypting, authenticating = (derived_key(version, protection_key, use) for use in (ENCRYPTION, AUTHENTICATION))
    text = block[:length].encode()
    start = mac if version.derives else text[:DES_BLOCK]
    clear = decrypt_cbc(version.suite, encrypting, start, sealed)
    right = (
        cmac(version.suite, authenticating, text + clear)
        if version.derives
        else chained_mac(authenticating, text + sealed)
    )
    if not hmac.compare_digest(right[: version.mac_bytes], mac):
        raise BadKey("the key block was changed, or is under another protection key")
    return header, key_in(clear)


def key_in(clear: bytes) -> bytes:
    """Returns the key in a block's deciphered part: its length in bits, the key, random bytes."""
    bits = int.from_bytes(clear[:LENGTH_BYTES], "big")
    if bits % 8 or bits // 8 > len(clear) - LENGTH_BYTES:
        raise BadKey("the key block's key has no length that fits it")
    return clear[LENGTH_BYTES : LENGTH_BYTES + bits // 8]


def header_of(block: str) -> tuple[Header, int]:
    """Returns a block's header, and the length of the part that isn't enciphered."""
    found = HEADER.match(block)
    if not found or not block.isascii():
        raise BadKey("this is no key block: it has no header of 16 characters")
    version, length, usage, algorithm, mode, number, exportability, count = found.groups()
    if int(length) != len(block) or len(block) > MOST_LENGTH:
        raise BadKey(f"the key block says that it has {int(length)} characters, and has {len(block)}")
    at = HEADER_LENGTH
    optional = []
    for _ in range(int(count)):
        size = block[at + 2 : at + OPTIONAL_HEAD]
        if not re.fullmatch("[0-9A-F]{2}", size) or not OPTIONAL_HEAD <= int(size, 16) <= len(block) - at:
            raise BadKey("an optional block of the key block has no length, or an extended one, which isn't read")
        optional.append((block[at : at + 2], block[at + OPTIONAL_HEAD : at + int(size, 16)]))
        at += int(size, 16)
    return Header(version, usage, algorithm, mode, number, exportability, tuple(optional)), at


def version_of(letter: str) -> Version:
    if letter not in VERSIONS:
        raise BadKey(f"key blocks of version {letter} aren't taken: B, D, and C where it is asked for")
    return VERSIONS[letter]


def derived_key(version: Version, protection_key: bytes, use: bytes) -> bytes:
    """Returns the key for enciphering or for the MAC."""
    if not version.derives:
        if (version.suite, len(protection_key)) not in DERIVED:
            raise BadKey(f"a protection key of {len(protection_key)} bytes is none of version {version.letter}")
        return bytes(byte ^ VARIANTS[use] for byte in protection_key)
    word = DERIVED.get((version.suite, len(protection_key)))
    if word is None:
        raise BadKey(f"a protection key of {len(protection_key)} bytes is none of version {version.letter}")
    bits = (8 * len(protection_key)).to_bytes(2, "big")
    blocks = -(-len(protection_key) // version.suite.block)
    data = (bytes([number]) + use + b"\x00" + word + bits for number in range(1, blocks + 1))
    return b"".join(cmac(version.suite, protection_key, one) for one in data)[: len(protection_key)]


def chained_mac(key: bytes, data: bytes) -> bytes:
    """Returns the last block of data enciphered by triple DES in CBC mode."""
    return encrypt_cbc(Suite.TRIPLE_DES, key, bytes(DES_BLOCK), data)[-DES_BLOCK:]


def master_key_of(block: str, protection_key: bytes, use: Use, takes_version_c: bool = False) -> bytes:
    """Returns the master key of a key block, if its header says this use. Raises BadKey otherwise."""
    header, key = open_block(block, protection_key)
    if header.version == "C" and not takes_version_c:
        raise BadKey("a key block of version C has a MAC of 32 bits: take B or D, or say --version-c")
    if header.usage != USAGES[use]:
        raise BadKey(f"the key block's usage is {header.usage}, and {use.value} has {USAGES[use]}")
    if header.algorithm != ALGORITHMS[use.suite]:
        raise BadKey(f"the key block's algorithm is {header.algorithm}, and {use.value} has {ALGORITHMS[use.suite]}")
    if header.mode not in MODES:
        raise BadKey(f"the key block's mode of use is {header.mode}, and a master key has {' or '.join(MODES)}")
    if header.number.startswith(COMPONENT):
        raise BadKey("the key block has a component, and no whole key")
    if len(key) != KEY_BYTES:
        raise BadKey(f"the key block's key has {len(key)} bytes, and a master key has {KEY_BYTES}")
    for name, data in header.optional:
        if name == CHECK_VALUE and not data[2:].upper().startswith(check_value_by(data[:2], use.suite, key)):
            raise BadKey("the key block's check value isn't that of its key")
    return key


def check_value_by(way: str, suite: Suite, key: bytes) -> str:
    """Returns a check value as an optional block has it: by zeros enciphered, or by their CMAC."""
    if way == BY_CMAC:
        return cmac(suite, key, bytes(suite.block))[:CHECK_BYTES].hex().upper()
    return encrypt_cbc(suite, key, bytes(suite.block), bytes(suite.block))[:CHECK_BYTES].hex().upper()
