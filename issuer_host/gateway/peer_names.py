"""Which peers are accepted by TLS: those whose certificate has one of the names that the operator gave."""

from collections.abc import Iterator, Mapping, Sequence
from typing import Any


class PeerNames:
    """The accepted names. Without any, each certificate of the authority is accepted."""

    def __init__(self, accepted: Sequence[str] = ()) -> None:
        self.accepted = frozenset(name.casefold() for name in accepted)

    def accept(self, certificate: Mapping[str, Any]) -> bool:
        """Whether a certificate has an accepted name, as `getpeercert` has it."""
        return not self.accepted or any(name.casefold() in self.accepted for name in names_of(certificate))


def names_of(certificate: Mapping[str, Any]) -> Iterator[str]:
    """The common names of a certificate's subject, and its alternative names for the domain name system."""
    for part in certificate.get("subject", ()):
        yield from (value for kind, value in part if kind == "commonName")
    yield from (value for kind, value in certificate.get("subjectAltName", ()) if kind == "DNS")
