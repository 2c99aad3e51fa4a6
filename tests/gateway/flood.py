#!/usr/bin/env python3
"""Sockets that connect to a port of the loopback and send nothing, or a few bytes, and are opened again when closed.

usage: tests/gateway/flood.py PORT COUNT SECONDS SENT ADDRESS ..

SENT are the bytes that each sends, in hexadecimal, or - for none. The sockets come from the addresses in turn. It ends
after SECONDS, or at the end of its input. Its last line has how many sockets it opened, and how many were closed.
"""
import contextlib
import errno
import os
import resource
import selectors
import socket
import subprocess
import sys
import time
from types import TracebackType
from typing import Optional

# No more sockets are opened in a second.
OPENS_A_SECOND = 2_000
LONGEST_SECONDS = 120.0
TURN_SECONDS = 0.02


class Flood:
    """The sockets of one process, opened again as they are closed."""

    def __init__(self, port: int, count: int, sent: bytes, addresses: list[str]) -> None:
        self.port, self.count, self.sent, self.addresses = port, count, sent, addresses
        self.selector = selectors.DefaultSelector()
        self.opened = self.closed = self.held = 0

    def run(self, seconds: float) -> None:
        end = time.monotonic() + min(seconds, LONGEST_SECONDS)
        self.selector.register(sys.stdin, selectors.EVENT_READ)
        while time.monotonic() < end:
            began = time.monotonic()
            for _ in range(min(self.count - self.held, int(OPENS_A_SECOND * TURN_SECONDS))):
                self.open()
            for key, _ in self.selector.select(0):
                if key.fileobj is sys.stdin:
                    return
                if isinstance(key.fileobj, socket.socket):
                    self.look(key.fileobj)
            time.sleep(max(TURN_SECONDS - (time.monotonic() - began), 0.0))

    def open(self) -> None:
        one = socket.socket()
        one.setblocking(False)
        one.bind((self.addresses[self.opened % len(self.addresses)], 0))
        with contextlib.suppress(BlockingIOError):
            one.connect(("127.0.0.1", self.port))
        self.opened += 1
        self.held += 1
        wanted = selectors.EVENT_READ | (selectors.EVENT_WRITE if self.sent else 0)
        self.selector.register(one, wanted)

    def look(self, one: socket.socket) -> None:
        """Sends what each sends once it is connected, and closes a socket that the other side has closed."""
        if one.getsockopt(socket.SOL_SOCKET, socket.SO_ERROR) == 0:
            try:
                if self.sent and self.selector.get_key(one).events & selectors.EVENT_WRITE:
                    one.send(self.sent)
                    self.selector.modify(one, selectors.EVENT_READ)
                    return
                if one.recv(65536):
                    return
            except BlockingIOError:
                return
            except OSError as fault:
                if fault.errno == errno.ENOTCONN:
                    return
        self.selector.unregister(one)
        one.close()
        self.closed += 1
        self.held -= 1


class Flooding:
    """A flood in a process of its own, while the block runs."""

    def __init__(self, port: int, count: int, addresses: list[str], sent: bytes = b"") -> None:
        words = [str(port), str(count), str(LONGEST_SECONDS), sent.hex() or "-", *addresses]
        self.command = [sys.executable, os.path.realpath(__file__), *words]
        self.process: Optional[subprocess.Popen[str]] = None
        self.said = ""

    def __enter__(self) -> "Flooding":
        pipe = subprocess.PIPE
        self.process = subprocess.Popen(self.command, stdin=pipe, stdout=pipe, text=True)
        return self

    def __exit__(
        self, kind: Optional[type[BaseException]], fault: Optional[BaseException], trace: Optional[TracebackType]
    ) -> None:
        assert self.process is not None
        self.said = self.process.communicate("")[0]


def main() -> None:
    port, count, seconds, sent, *addresses = sys.argv[1:]
    files = int(count) + 100
    _, hard = resource.getrlimit(resource.RLIMIT_NOFILE)
    resource.setrlimit(resource.RLIMIT_NOFILE, (files if hard == resource.RLIM_INFINITY else min(files, hard), hard))
    flood = Flood(int(port), int(count), b"" if sent == "-" else bytes.fromhex(sent), addresses)
    flood.run(float(seconds))
    print(f"{flood.opened} opened, {flood.closed} closed, {flood.held} held")


if __name__ == "__main__":
    main()
