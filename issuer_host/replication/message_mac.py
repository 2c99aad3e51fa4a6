"""The last line of a stream's message, by which all who read it know that a node of the cluster wrote it.

    mac 64 HEXADECIMAL DIGITS

They are HMAC-SHA-256, under a key of the cluster, over the stream's name, a newline, and all lines before this one. So
a message of one partition's stream counts nowhere in another's. Who has no key can write what was written before once
more, which does no harm, and nothing else that counts.

While a key is changed the nodes have two. A node that reads what another key than its own signed writes, once, a mark
that is signed by that key and names its own. So a machine that lacks a key stops before it passes over what counts.
"""
import hmac
import re
from collections.abc import Sequence
from typing import Optional

from issuer_host.facts.limits import MAX_MESSAGE_BYTES
from issuer_host.replication.cluster_keys import fingerprint_of
from issuer_host.replication.messages import Mark, MessageFault

DIGEST = "sha256"
LAST_LINE = re.compile(rb"mac [0-9a-f]{64}\n")
LINE_BYTES = len("mac \n") + 64
# A mark that begins so names the key by which its writer signs.
KEY_MARK = "key."
NAMES_KEY = re.compile(rf"mark {re.escape(KEY_MARK)}(?P<fingerprint>[0-9A-Za-z_.-]{{1,60}})\n")


class MessageMacs:
    """Signs the messages of one stream by the first key, and opens those that were signed by any."""

    def __init__(self, stream: str, keys: Sequence[bytes]) -> None:
        self.stream = stream
        self.begin = stream.encode("ascii") + b"\n"
        self.keys = tuple(keys)
        self.fingerprints = tuple(map(fingerprint_of, keys))

    def signed(self, text: str) -> bytes:
        """Returns the body of a message."""
        return self.signed_by(self.keys[0], text)

    def signed_by(self, key: bytes, text: str) -> bytes:
        body = text.encode("ascii")
        return body + self.line_of(key, body)

    def read(self, body: bytes, has_headers: bool) -> str:
        """Returns the text of a message that a node wrote. Any other is a MessageFault."""
        if has_headers:
            raise MessageFault("it has headers")
        return self.opened(body)

    def opened(self, body: bytes) -> str:
        """Returns the text of a message that a node signed. Any other is a MessageFault."""
        if len(body) > MAX_MESSAGE_BYTES:
            raise MessageFault(f"it is longer than {MAX_MESSAGE_BYTES} bytes")
        if not body.isascii():
            raise MessageFault("it isn't ASCII")
        text, last = body[:-LINE_BYTES], body[-LINE_BYTES:]
        if not LAST_LINE.fullmatch(last):
            raise MessageFault("its last line is no MAC")
        if self.key_of(body) is None:
            raise MessageFault("its MAC isn't right")
        return text.decode("ascii")

    def key_of(self, body: bytes) -> Optional[bytes]:
        """Returns the key that signed a message, if it is one of these."""
        text, last = body[:-LINE_BYTES], body[-LINE_BYTES:]
        return next((key for key in self.keys if hmac.compare_digest(last, self.line_of(key, text))), None)

    def key_mark(self) -> Mark:
        """Returns the mark that names the key which signs here."""
        return Mark(KEY_MARK + self.fingerprints[0])

    def lacks_key_of(self, text: str) -> bool:
        """Whether a message names a key that isn't here."""
        found = NAMES_KEY.fullmatch(text)
        return found is not None and found["fingerprint"] not in self.fingerprints

    def line_of(self, key: bytes, text: bytes) -> bytes:
        return b"mac " + hmac.digest(key, self.begin + text, DIGEST).hex().encode() + b"\n"
