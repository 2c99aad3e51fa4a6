"""A card: its transactions, its check of the issuer's answer, and the script commands that it runs.

They are those of EMV 4.3 Book 2, 8 and 9, and Book 3, 6.5. What the card reports to its issuer in the issuer
application data is this project's profile, and so is all of AES (docs/formats/cryptograms-and-scripts.md).
"""
from typing import Any

from oracle.cards import issuer_data, seal
from oracle.chip_data import Request, objects
from oracle.configuration import CardInfo
from oracle.keys import CardKeys, session_key_for_cryptograms, session_key_for_messages
from oracle.pin import last_pin
from oracle.terminal import purchase, signed

LAST_ATC = 65_535
# The most commands that CVR byte 4 can count.
MOST_COUNTED = 15


class Card:
    """A card of this name and method.

    It has its own master keys, all of one suite, and perhaps one for confidentiality.
    """

    def __init__(self, info: CardInfo, keys: CardKeys, dki: int = 1, confidentiality: bytes | None = None) -> None:
        self.info = info
        self.keys = keys
        self.dki = dki
        self.confidentiality = confidentiality
        self.atc = self.register = self.count = 0
        self.failed = False
        self.open: Request | None = None
        self.chain: bytes | None = None
        self.ran: list[bytes] = []

    def tap(self, **fields: Any) -> Request:
        """GENERATE AC: the request of a new transaction.

        These of the terminal's fields stand in place of those of `purchase`.
        """
        self.atc += 1
        request = purchase(self.info.pan, self.atc, self.register, self.count, self.dki, self.keys.suite)
        results = bytes([0xA0, 0, 0, self.count << 4 | self.failed << 3, 0])
        data = request.data[:3] + results + request.data[8:]
        self.open = signed(request._replace(psn=self.info.psn, data=data, **fields), self.keys.cryptograms)
        self.chain = None
        return self.open

    def is_answered(self) -> bool:
        """Whether the issuer's cryptogram of the open transaction was right: it is checked once in a transaction."""
        return self.chain is not None

    def authenticate(self, value: bytes, code: bytes) -> bool:
        """EXTERNAL AUTHENTICATE, or the second GENERATE AC.

        Returns whether the issuer's cryptogram is right for the open transaction.
        """
        if self.open is None or self.is_answered():
            return False
        session = session_key_for_cryptograms(self.keys.suite, self.keys.cryptograms, self.open.atc)
        if value != issuer_data(self.keys.suite, self.info.method, session, self.open.cryptogram, code, value[4:]):
            return False
        self.register = self.atc
        self.count = 0
        self.failed = False
        self.chain = self.open.cryptogram
        return True

    def run(self, sealed: bytes) -> bool:
        """A script command: it is run if its MAC is right at this place of the chain. Whether it was."""
        if self.open is None or self.chain is None:
            return False
        command = command_in(sealed)
        key = session_key_for_messages(self.keys.suite, self.keys.messages, self.open.cryptogram)
        right, chain = seal(self.keys.suite, key, self.chain, command)
        if self.count == MOST_COUNTED or right != sealed:
            self.failed = True
            return False
        self.ran.append(command)
        self.count = self.count + 1
        self.chain = chain
        return True

    def pin(self) -> str | None:
        """The digits of the PIN that the last PIN change set, or None."""
        return last_pin(self.confidentiality, self.ran) if self.confidentiality else None


def command_in(sealed: bytes) -> bytes:
    """The command without Lc and MAC."""
    return sealed[:4] + sealed[5:-8]


def commands_in(data: bytes) -> list[bytes]:
    """The sealed commands in the bytes for a card: the tags 86 of its script template, tag 72."""
    return [value for tag, value in objects(dict(objects(data)).get("72", b"")) if tag == "86"]
