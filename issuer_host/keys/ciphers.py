"""Triple DES and AES, by the library `cryptography`: no key of the host's proof passes here."""
from __future__ import annotations

from cryptography.hazmat.primitives.ciphers import Cipher, modes
from cryptography.hazmat.primitives.ciphers.algorithms import AES, TripleDES
from cryptography.hazmat.primitives.cmac import CMAC

from issuer_host.keys.uses import DES_BLOCK, Suite


def cipher_of(suite: Suite, key: bytes) -> TripleDES | AES:
    """Returns a cipher under a key. A double-length key of triple DES has its first half again as the third."""
    if suite is Suite.AES:
        return AES(key)
    return TripleDES(key + key[:DES_BLOCK] if len(key) == 2 * DES_BLOCK else key)


def cmac(suite: Suite, key: bytes, data: bytes) -> bytes:
    """Returns the CMAC of some data (NIST SP 800-38B)."""
    mac = CMAC(cipher_of(suite, key))
    mac.update(data)
    return bytes(mac.finalize())


def encrypt_cbc(suite: Suite, key: bytes, start: bytes, data: bytes) -> bytes:
    encryptor = Cipher(cipher_of(suite, key), modes.CBC(start)).encryptor()
    return bytes(encryptor.update(data) + encryptor.finalize())


def decrypt_cbc(suite: Suite, key: bytes, start: bytes, data: bytes) -> bytes:
    decryptor = Cipher(cipher_of(suite, key), modes.CBC(start)).decryptor()
    return bytes(decryptor.update(data) + decryptor.finalize())
