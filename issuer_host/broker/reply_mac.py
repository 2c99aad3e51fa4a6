"""The MAC of an answer, by which a publisher knows that a bridge of its partition wrote it.

Whoever may write to the answers' exchange and sees a correlation id can publish an answer. Where bridges and publishers
have one key in their broker files, an answer's last line is `mac` and HMAC-SHA-256 over the request's correlation id,
the request and the answer, each after its length. So no answer stands for another request. A last newline of a request
doesn't count.
"""
import hashlib
import hmac
import struct
from typing import Optional, Union

from issuer_host.broker import broker_file

WORD = b"mac "
Text = Union[str, bytes, None]


class ReplyMacs:
    """Seals and opens answers by the key of a broker file, or leaves them as they are if it has none."""

    def __init__(self, path: Optional[str]) -> None:
        self.key = broker_file.read(path).answers_key

    def sealed(self, correlation: Text, request: bytes, answer: str) -> bytes:
        """Returns the body that a bridge publishes."""
        body = answer.encode("ascii")
        return body if self.key is None else body + b"\n" + self.line_of(self.key, correlation, request, body)

    def opened(self, correlation: Text, request: str, body: bytes) -> Optional[str]:
        """Returns the answer of a body, or None if no bridge wrote it. Without a key all are believed."""
        answer, _, last = body.rpartition(b"\n")
        if self.key is None:
            return (answer if last.startswith(WORD) else body).decode("ascii", errors="replace")
        line = self.line_of(self.key, correlation, request.encode("ascii"), answer)
        return answer.decode("ascii", errors="replace") if hmac.compare_digest(last, line) else None

    @staticmethod
    def line_of(key: bytes, correlation: Text, request: bytes, answer: bytes) -> bytes:
        name = correlation.encode() if isinstance(correlation, str) else correlation or b""
        parts = name, request.removesuffix(b"\n"), answer
        text = b"".join(struct.pack(">Q", len(part)) + part for part in parts)
        return WORD + hmac.new(key, text, hashlib.sha256).hexdigest().encode()
