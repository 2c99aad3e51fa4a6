"""Whether a link is signed on, and what the gateway itself says on it: events and actions, with no socket and no clock.

A link that the gateway dials is signed off until its sign-on is accepted. One that a peer opened is signed on until the
peer signs off.
"""

from typing import NamedTuple, Optional, Union

from issuer_host.gateway.dialect import Network


class Tell(NamedTuple):
    """Send a network message with this code."""

    code: str


class Leave(NamedTuple):
    """Close the link, and why."""

    why: str


Action = Union[Tell, Leave]


class Session:
    """The session of a connection. Each event returns what is to be done, or nothing."""

    def __init__(self, network: Network, is_dialled: bool) -> None:
        self.network, self.is_dialled = network, is_dialled
        self.is_signed_on = not (is_dialled and network.sign_on)
        # The code of the gateway's own message that has no answer yet, and since when.
        self.asked, self.since = "", 0.0
        self.next_echo = 0.0
        self.is_leaving = False

    def opened(self, now: float) -> Optional[Action]:
        """The link is up."""
        self.next_echo = now + self.network.echo_seconds
        return self.tell(self.network.sign_on, now) if self.is_dialled and self.network.sign_on else None

    def answered(self, is_accepted: bool, now: float) -> Optional[Action]:
        """The gateway's own message was answered."""
        code, self.asked = self.asked, ""
        if self.is_leaving:
            return Leave("signed off") if code == self.network.sign_off else self.sign_off(now)
        if code == self.network.sign_on:
            if not is_accepted:
                return Leave("the sign-on was refused")
            self.is_signed_on = True
        self.next_echo = now + self.network.echo_seconds
        return None

    def told(self, code: str) -> None:
        """The peer sent a network message with this code, which was accepted."""
        if code and code == self.network.sign_off:
            self.is_signed_on = False
        elif code and code == self.network.sign_on:
            self.is_signed_on = True

    def looked(self, now: float) -> Optional[Action]:
        """Time has passed."""
        network = self.network
        if self.asked:
            names = {network.sign_on: "sign-on", network.sign_off: "sign-off"}
            is_overdue = now - self.since > network.answer_seconds
            return Leave(f"no answer to the {names.get(self.asked, 'echo test')}") if is_overdue else None
        has_echo = self.is_dialled and network.echo and network.echo_seconds and not self.is_leaving
        if has_echo and now >= self.next_echo:
            return self.tell(network.echo, now)
        return None

    def left(self, now: float) -> Optional[Action]:
        """The gateway ends: the link is closed once its sign-off is answered."""
        if self.is_leaving:
            return None
        self.is_leaving = True
        return None if self.asked else self.sign_off(now)

    def sign_off(self, now: float) -> Action:
        if not (self.is_dialled and self.network.sign_off and self.is_signed_on):
            return Leave("the gateway ends")
        self.is_signed_on = False
        return self.tell(self.network.sign_off, now)

    def tell(self, code: str, now: float) -> Tell:
        self.asked, self.since = code, now
        return Tell(code)
