"""The name of a key in a PKCS#11 token: a `pkcs11:` URI (RFC 7512), with the attributes that a start needs."""
from __future__ import annotations

import re
from dataclasses import dataclass
from typing import Optional
from urllib.parse import unquote_to_bytes

from issuer_host.facts.refusal import Refusal

SCHEME = "pkcs11:"
# Attributes of the path, by which the token and the key are found; and of the query, for who opens them.
OF_PATH = ("token", "serial", "object")
OF_QUERY = ("module-path", "pin-source")
FILE = "file:"
# What an attribute's value may have without being escaped (RFC 7512, section 2.3).
PLAIN = re.compile(r"(?:[A-Za-z0-9\-._~:\[\]@!$'()*+,=/&]|%[0-9A-Fa-f]{2})*")


@dataclass(frozen=True)
class TokenUri:
    """Which key of which token, the library that has it, and the file with the PIN, if one is named."""

    token: str
    key: str
    module: str
    serial: Optional[str] = None
    pin_file: Optional[str] = None


def read_uri(text: str) -> TokenUri:
    """Returns what a URI names. Raises Refusal if it is no such URI, or names a PIN itself."""
    if not text.startswith(SCHEME):
        raise Refusal(f"a token's URI begins with `{SCHEME}`: pkcs11:token=NAME;object=KEY?module-path=FILE")
    path, _, query = text[len(SCHEME) :].partition("?")
    if "pin-value" in query or "pin-value" in path:
        raise Refusal("a token's URI may not have the PIN: name its file by pin-source=file:PATH")
    given = attributes(path, ";", OF_PATH) | attributes(query, "&", OF_QUERY)
    for name in ("token", "object", "module-path"):
        if not given.get(name):
            raise Refusal(f"the token's URI has no `{name}`")
    return TokenUri(
        given["token"], given["object"], given["module-path"], given.get("serial"), file_of(given.get("pin-source"))
    )


def file_of(source: Optional[str]) -> Optional[str]:
    """Returns the path of the PIN's file."""
    if source is None:
        return None
    path = source[len(FILE) :] if source.startswith(FILE) else source
    if not path.startswith("/"):
        raise Refusal("the token's URI names no file with the PIN: pin-source=file:/PATH")
    return path


def attributes(text: str, between: str, known: tuple[str, ...]) -> dict[str, str]:
    """Returns the attributes of a part of a URI. Raises Refusal at one that nobody knows, or is there twice."""
    found: dict[str, str] = {}
    for piece in filter(None, text.split(between)):
        name, equals, value = piece.partition("=")
        if name not in known:
            raise Refusal(f"the token's URI has an attribute that isn't known; known are {', '.join(known)}")
        if name in found or not equals:
            raise Refusal(f"the token's URI has `{name}` twice, or without a value")
        if not PLAIN.fullmatch(value):
            raise Refusal(f"the value of `{name}` in the token's URI needs %-escapes")
        found[name] = decoded(name, value)
    return found


def decoded(name: str, value: str) -> str:
    try:
        return unquote_to_bytes(value).decode()
    except UnicodeDecodeError:
        raise Refusal(f"the value of `{name}` in the token's URI is no UTF-8") from None
