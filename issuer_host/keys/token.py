"""A key in a PKCS#11 token, under which others are wrapped (AES key wrap with padding, RFC 5649).

It needs Debian's python3-pykcs11. A host's start never tries a PIN again that the token refused (`refused_pin`).
"""
from __future__ import annotations

import errno
import os
from collections.abc import Callable, Collection, Sequence
from types import TracebackType
from typing import Any, Optional

import PyKCS11

from issuer_host.facts.refusal import Refusal
from issuer_host.files.private_files import check_secret
from issuer_host.keys.master_key import check_value
from issuer_host.keys.refused_pin import RefusedPin
from issuer_host.keys.token_uri import TokenUri, read_uri
from issuer_host.keys.uses import KEY_BYTES
from issuer_host.keys.wrapped_keys import WRAPPED_BYTES, WrappedKey, wipe

CREDENTIALS = "CREDENTIALS_DIRECTORY"
PIN = "pin"
MOST_PIN = 256
# Mechanisms of AES key wrap with padding: the name of PKCS#11 3.0, and the one that older tokens have.
WRAPS = (0x210B, 0x210A)
INVALID_MECHANISM = 0x70
PIN_FAULTS = {
    0xA0: "is wrong",
    0xA1: "has a character that the token doesn't take",
    0xA2: "has a length that the token doesn't take",
}
PIN_LOCKED = 0xA4


class WrongPin(Refusal):
    """The token refused the PIN."""


class Token:
    """A session with a token, until the end of its `with`."""

    def __init__(self, uri: TokenUri, pin: str) -> None:
        self.uri = uri
        self.pin = pin
        # What is known of a PIN that was wrong; None if a person starts this, and tries it.
        self.refused: Optional[RefusedPin] = None
        self.library: Any = None
        self.session: Any = None
        self.key: Any = None

    def __enter__(self) -> Token:
        self.library = PyKCS11.PyKCS11Lib()
        try:
            self.library.load(self.uri.module)
        except PyKCS11.PyKCS11Error as fault:
            raise away(f"the PKCS#11 library {self.uri.module}", f"doesn't begin (fault {code_of(fault)})") from None
        try:
            self.session = self.library.openSession(self.slot(), PyKCS11.CKF_SERIAL_SESSION)
            self.log_in()
            self.key = self.found_key()
        except BaseException:
            self.close()
            raise
        return self

    def __exit__(
        self, kind: Optional[type[BaseException]], fault: Optional[BaseException], trace: Optional[TracebackType]
    ) -> None:
        self.close()

    def close(self) -> None:
        """Ends the library: dropping its objects alone doesn't log out."""
        self.key = self.session = None
        self.library.lib.C_Finalize()

    def slot(self) -> Any:
        """Returns the slot of the token that the URI names."""
        found, labels = [], []
        for slot in self.library.getSlotList(tokenPresent=True):
            info = self.library.getTokenInfo(slot)
            label, serial = info.label.rstrip(" \0"), info.serialNumber.rstrip(" \0")
            labels.append(label)
            if label == self.uri.token and self.uri.serial in (None, serial):
                found.append(slot)
        if len(found) != 1:
            there = ", ".join(sorted(filter(None, labels))) or "none"
            raise away("the token", f"{len(found)} tokens are as the URI says; there are: {there}")
        return found[0]

    def log_in(self) -> None:
        try:
            if self.refused is None:
                self.try_pin()
            else:
                with self.refused as refused:
                    self.try_unless_refused(refused)
        finally:
            self.pin = ""

    def try_unless_refused(self, refused: RefusedPin) -> None:
        refused.check(self.pin)
        try:
            self.try_pin()
        except WrongPin:
            refused.note(self.pin)
            raise
        refused.forget()

    def try_pin(self) -> None:
        try:
            self.session.login(self.pin)
        except PyKCS11.PyKCS11Error as fault:
            if fault.value == PIN_LOCKED:
                raise Refusal("the token has locked the PIN: unlock it with the token's own tools") from None
            if fault.value in PIN_FAULTS:
                what = f"the PIN of the token {PIN_FAULTS[fault.value]}"
                raise WrongPin(f"{what}. Look before you try again: many tokens lock after a few tries") from None
            raise away("the token", f"doesn't log in (fault {code_of(fault)})") from None

    def found_key(self) -> Any:
        found = self.session.findObjects(
            [(PyKCS11.CKA_CLASS, PyKCS11.CKO_SECRET_KEY), (PyKCS11.CKA_LABEL, self.uri.key)]
        )
        if len(found) != 1:
            raise Refusal(
                f"the token {self.uri.token} has {len(found)} secret keys of the name {self.uri.key}, not one"
            )
        return found[0]

    def unwrapped(self, wrapped: WrappedKey) -> bytearray:
        """Returns a key in clear. Raises Refusal if it was changed, or isn't that of its check value."""
        try:
            made = self.by_mechanism(lambda way: self.session.unwrapKey(self.key, wrapped.text, clear_template(), way))
        except PyKCS11.PyKCS11Error as fault:
            what = f"{wrapped.name} was changed, or wrapped under another key"
            raise Refusal(f"{what} (the token's fault is {code_of(fault)})") from None
        try:
            value = self.value_of(made, wrapped)
        finally:
            self.session.destroyObject(made)
        key = bytearray(value)
        try:
            check_unwrapped(wrapped, key)
        except Refusal:
            wipe(key)
            raise
        return key

    def value_of(self, made: Any, wrapped: WrappedKey) -> Any:
        value = self.session.getAttributeValue(made, [PyKCS11.CKA_VALUE])[0]
        if value is None:
            raise Refusal(f"the token doesn't give {wrapped.name} in clear: it can't serve a host by its policy")
        return value

    def wrap(self, key: bytes) -> bytes:
        """Returns a key wrapped under the token's."""
        made = self.session.createObject([*clear_template(), value_entry(key)])
        try:
            wrapped = bytes(self.by_mechanism(lambda way: self.session.wrapKey(self.key, made, way)))
        finally:
            self.session.destroyObject(made)
        if len(wrapped) != WRAPPED_BYTES:
            raise Refusal(f"the token wraps a key into {len(wrapped)} bytes, and {WRAPPED_BYTES} are expected")
        return wrapped

    def by_mechanism(self, does: Callable[[Any], Any]) -> Any:
        """Does something by the first mechanism that the token has."""
        for number, way in enumerate(WRAPS, 1):
            try:
                return does(PyKCS11.Mechanism(way))
            except PyKCS11.PyKCS11Error as fault:
                if fault.value != INVALID_MECHANISM or number == len(WRAPS):
                    raise
        raise AssertionError("no mechanism was tried")


def check_unwrapped(wrapped: WrappedKey, key: Sequence[int]) -> None:
    """Refuses a key that isn't the one whose check value stands beside it."""
    if len(key) != KEY_BYTES:
        raise Refusal(f"{wrapped.name} has {len(key)} bytes, and a master key has {KEY_BYTES}")
    if check_value(wrapped.use.suite, bytes(key)) != wrapped.check_value:
        raise Refusal(f"{wrapped.name} isn't the key of the check value beside it: were two keys exchanged?")


def clear_template() -> list[tuple[Any, Any]]:
    """Returns the template of a key of the session whose value can be read."""
    return [
        (PyKCS11.CKA_CLASS, PyKCS11.CKO_SECRET_KEY),
        (PyKCS11.CKA_KEY_TYPE, PyKCS11.CKK_GENERIC_SECRET),
        (PyKCS11.CKA_TOKEN, False),
        (PyKCS11.CKA_PRIVATE, True),
        (PyKCS11.CKA_SENSITIVE, False),
        (PyKCS11.CKA_EXTRACTABLE, True),
    ]


def value_entry(key: bytes) -> tuple[Any, Any]:
    return PyKCS11.CKA_VALUE, key


def code_of(fault: Any) -> str:
    return hex(fault.value) if isinstance(fault.value, int) and fault.value >= 0 else str(fault)


def away(what: str, why: str) -> OSError:
    """Returns the fault of a token that may be back: a start that ends with it is tried again."""
    return OSError(errno.ENODEV, why, what)


def opened_token(text: str, owners: Collection[int] = ()) -> Token:
    """Returns the token of a URI, to be opened by `with`. Its PIN is read now, from a file that these users may own."""
    uri = read_uri(text)
    return Token(uri, read_pin(uri, owners))


def read_pin(uri: TokenUri, owners: Collection[int]) -> str:
    """Returns the PIN: from the file that the URI names, or from the service manager's credential `pin`."""
    folder = os.environ.get(CREDENTIALS)
    path = uri.pin_file or (os.path.join(folder, PIN) if folder else None)
    if path is None:
        raise Refusal("no file has the token's PIN: add pin-source=file:/PATH to its URI, or a credential `pin`")
    try:
        if uri.pin_file:
            check_secret(path, "PIN's file", "PIN", owners)
        with open(path, encoding="ascii", newline="") as file:
            text = file.read(MOST_PIN)
    except FileNotFoundError:
        raise Refusal(f"the PIN's file {path} doesn't exist") from None
    except UnicodeDecodeError:
        raise Refusal(f"the PIN's file {path} has characters that aren't ASCII") from None
    pin = text[:-1] if text.endswith("\n") else text
    if not pin:
        raise Refusal(f"the PIN's file {path} is empty")
    if "\r" in pin or "\n" in pin:
        raise Refusal(f"the PIN's file {path} has more than one line, or a carriage return: write it again")
    return pin
