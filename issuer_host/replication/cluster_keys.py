"""The keys that the nodes of a cluster share. With the first one a node signs what it writes to streams.

The file has a line for each key, of 64 hexadecimal digits or more. While a key is changed it has two, and what either
of them signed is believed.
"""
import hashlib
import os
import re
from typing import NamedTuple

from issuer_host.facts.refusal import Refusal
from issuer_host.files.private_files import check_secret
from issuer_host.files.regular_files import open_regular

# The digits of a key, two for each byte, and how many keys a file has at most.
KEY = re.compile(r"(?:[0-9A-Fa-f]{2}){32,256}")
MAX_KEYS = 4
MAX_BYTES = 4096
FINGERPRINT_DIGITS = 16
PAGE = 'docs/operate/three-machines.md, "The cluster\'s key", says how to make and change it'


class ClusterKeys(NamedTuple):
    """The keys of a file, the one that signs first."""

    path: str
    keys: "tuple[bytes, ...]"

    def fingerprints(self) -> "tuple[str, ...]":
        """Returns for each key what names it in messages and logs. It doesn't give the key away."""
        return tuple(map(fingerprint_of, self.keys))


def fingerprint_of(key: bytes) -> str:
    return hashlib.sha256(b"key of a cluster\n" + key).hexdigest()[:FINGERPRINT_DIGITS]


def read(path: str) -> ClusterKeys:
    """Reads a file of keys. Refuses one that is missing, that others could read, or that isn't of this form."""
    try:
        with open(open_regular(path, os.O_RDONLY), "rb") as opened:
            text = opened.read(MAX_BYTES + 1)
    except OSError as fault:
        raise Refusal(f"the cluster's key {path} can't be read: {fault.strerror}; {PAGE}") from fault
    check_secret(path, "cluster's key", "digits")
    lines = text.decode("latin-1").split("\n")
    if lines[-1] == "":
        lines.pop()
    if not 1 <= len(lines) <= MAX_KEYS or len(set(lines)) < len(lines) or not all(map(KEY.fullmatch, lines)):
        # (no line is told: it may be a key with a digit too few)
        raise Refusal(
            f"{path} has a line for each key, {MAX_KEYS} at most, each of 64 hexadecimal digits or more; {PAGE}"
        )
    return ClusterKeys(path, tuple(map(bytes.fromhex, lines)))
