"""What a service tells the service manager, if there is one.

A bridge is ready once its host has answered a first line: then the journals are loaded, and requests are answered. A
bridge beside another one that serves has no host: it is ready as soon as it is connected, and takes over if the other
one ends.
"""
import os
import socket

from issuer_host.facts.troubles import Level, say

# A start that goes on asks for so much more time at each look.
MORE_SECONDS = 20


def notify(name: str, text: str) -> None:
    """Tells the service manager. One that can't be told ends nothing."""
    path = os.environ.get("NOTIFY_SOCKET")
    if not path:
        return
    address = "\0" + path[1:] if path[0] == "@" else path
    with socket.socket(socket.AF_UNIX, socket.SOCK_DGRAM | socket.SOCK_CLOEXEC) as to:
        try:
            to.sendto(text.encode(), address)
        except OSError as fault:
            say(name, Level.WARNING, f"the service manager can't be told: {fault.strerror}")


class Readiness:
    """When a bridge tells the service manager that it is ready."""

    def __init__(self, name: str) -> None:
        self.name = name
        self.is_told = False

    def tell(self) -> None:
        if not self.is_told:
            self.is_told = True
            notify(self.name, "READY=1")

    def look(self, state: str) -> None:
        """Tells what goes on, and that it does go on."""
        more = "WATCHDOG=1" if self.is_told else f"EXTEND_TIMEOUT_USEC={MORE_SECONDS * 1_000_000}"
        notify(self.name, f"{more}\nSTATUS={state}")
