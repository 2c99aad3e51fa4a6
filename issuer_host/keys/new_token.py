"""A new token: its PINs from random digits, and the key under which others are wrapped."""
from __future__ import annotations

import os
from collections.abc import Callable
from typing import Any

import PyKCS11

from issuer_host.facts.refusal import Refusal
from issuer_host.keys.token import away, code_of
from issuer_host.keys.token_uri import TokenUri

# PKCS#11 has labels of 32 characters, filled with blanks.
LABEL = 32
PIN_DIGITS = 32
KEY_BYTES = 32
PIN_MODE = 0o600


def begin_token(uri: TokenUri, officer_file: str, digits: Callable[[int], str]) -> None:
    """Makes a token in the first slot that has none, the files of its PINs, and its wrapping key."""
    if uri.pin_file is None:
        raise Refusal("the URI has to name the file for the PIN: add pin-source=file:/PATH")
    library = PyKCS11.PyKCS11Lib()
    try:
        library.load(uri.module)
    except PyKCS11.PyKCS11Error as fault:
        raise away(f"the PKCS#11 library {uri.module}", f"doesn't begin (fault {code_of(fault)})") from None
    try:
        slot = free_slot(library, uri)
        officer, user = (written_pin(path, digits) for path in (officer_file, uri.pin_file))
        library.initToken(slot, officer, uri.token.ljust(LABEL))
        slot = slot_of(library, uri)
        session = library.openSession(slot, PyKCS11.CKF_SERIAL_SESSION | PyKCS11.CKF_RW_SESSION)
        session.login(officer, PyKCS11.CKU_SO)
        session.initPin(user)
        session.logout()
        session.login(user)
        make_wrapping_key(session, uri.key)
    except PyKCS11.PyKCS11Error as fault:
        raise Refusal(f"the token {uri.token} could not be made (fault {code_of(fault)})") from None
    finally:
        library.lib.C_Finalize()


def free_slot(library: Any, uri: TokenUri) -> Any:
    """Returns a slot without a token. Raises Refusal if a token has the name already."""
    if label_slots(library, uri.token):
        raise Refusal(f"a token {uri.token} is there already: choose another name, or use it as it is")
    for slot in library.getSlotList():
        if not library.getTokenInfo(slot).flags & token_initialized():
            return slot
    raise Refusal("no slot of the library is free for a new token")


def token_initialized() -> int:
    return int(PyKCS11.CKF_TOKEN_INITIALIZED)


def label_slots(library: Any, label: str) -> list[Any]:
    slots = library.getSlotList(tokenPresent=True)
    return [slot for slot in slots if library.getTokenInfo(slot).label.rstrip(" \0") == label]


def slot_of(library: Any, uri: TokenUri) -> Any:
    """Returns the new token's slot: its number changes when the token is made."""
    found = label_slots(library, uri.token)
    if len(found) != 1:
        raise Refusal(f"{len(found)} tokens have the name {uri.token} after one was made")
    return found[0]


def make_wrapping_key(session: Any, name: str) -> None:
    """Makes a key for AES that wraps and unwraps, and never leaves the token."""
    template = [
        (PyKCS11.CKA_CLASS, PyKCS11.CKO_SECRET_KEY),
        (PyKCS11.CKA_KEY_TYPE, PyKCS11.CKK_AES),
        (PyKCS11.CKA_VALUE_LEN, KEY_BYTES),
        (PyKCS11.CKA_LABEL, name),
        *(
            (attribute, PyKCS11.CK_TRUE)
            for attribute in (
                PyKCS11.CKA_TOKEN,
                PyKCS11.CKA_PRIVATE,
                PyKCS11.CKA_SENSITIVE,
                PyKCS11.CKA_WRAP,
                PyKCS11.CKA_UNWRAP,
            )
        ),
        *((attribute, PyKCS11.CK_FALSE) for attribute in (PyKCS11.CKA_EXTRACTABLE, PyKCS11.CKA_MODIFIABLE)),
        *(
            (attribute, PyKCS11.CK_FALSE)
            for attribute in (PyKCS11.CKA_ENCRYPT, PyKCS11.CKA_DECRYPT, PyKCS11.CKA_SIGN, PyKCS11.CKA_VERIFY)
        ),
    ]
    session.generateKey(template, PyKCS11.Mechanism(PyKCS11.CKM_AES_KEY_GEN, None))


def written_pin(path: str, digits: Callable[[int], str]) -> str:
    """Writes a new PIN into a new file that its owner alone can read, and returns it."""
    pin = digits(PIN_DIGITS)
    try:
        held = os.open(path, os.O_WRONLY | os.O_CREAT | os.O_EXCL | os.O_NOFOLLOW | os.O_CLOEXEC, PIN_MODE)
    except FileExistsError:
        raise Refusal(f"the file {path} exists: a PIN's file is written once") from None
    with os.fdopen(held, "w", encoding="ascii") as file:
        file.write(pin)
        file.flush()
        os.fsync(held)
    return pin
