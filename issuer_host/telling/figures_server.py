"""Serves figures on the loopback, in a thread of their own: few connections at a time, each for a short time."""
import contextlib
import selectors
import socket
import threading
import time
from collections.abc import Callable

ADDRESS = "127.0.0.1"
# One more connection ends the oldest one.
CONNECTIONS = 16
# A connection is closed after so long.
SECONDS = 2.0
LOOK_SECONDS = 0.5
REQUEST = 4096
END = b"\r\n\r\n"
HEAD = "HTTP/1.0 200 OK\r\nContent-Type: text/plain; version=0.0.4; charset=utf-8\r\nContent-Length: {}\r\n\r\n"


class FiguresServer:
    """One thread over all connections: whoever opens many can't take the process's descriptors."""

    def __init__(self, port: int, page: Callable[[], bytes]) -> None:
        self.page = page
        self.listening = socket.create_server((ADDRESS, port), backlog=CONNECTIONS)
        self.listening.setblocking(False)
        self.selector = selectors.DefaultSelector()
        self.selector.register(self.listening, selectors.EVENT_READ)
        # When each was opened and what it has sent so far, the oldest first.
        self.opened: dict[socket.socket, float] = {}
        self.requests: dict[socket.socket, bytes] = {}

    def start(self) -> None:
        threading.Thread(target=self.serve, daemon=True, name="figures").start()

    def serve(self) -> None:
        while True:
            for key, _ in self.selector.select(LOOK_SECONDS):
                if key.fileobj is self.listening:
                    self.accept()
                elif isinstance(key.fileobj, socket.socket):
                    self.read(key.fileobj)
            late = time.monotonic() - SECONDS
            for connection in [one for one, opened in self.opened.items() if opened < late]:
                self.close(connection)

    def accept(self) -> None:
        try:
            connection, _ = self.listening.accept()
        except OSError:
            # (none waits any more, or no descriptor is left)
            time.sleep(LOOK_SECONDS / 10)
            return
        while len(self.opened) >= CONNECTIONS:
            self.close(next(iter(self.opened)))
        connection.setblocking(False)
        self.opened[connection] = time.monotonic()
        self.requests[connection] = b""
        self.selector.register(connection, selectors.EVENT_READ)

    def read(self, connection: socket.socket) -> None:
        """Takes a piece of a request, and answers it if it is all there."""
        if connection not in self.opened:
            return
        try:
            piece = connection.recv(REQUEST)
        except OSError:
            piece = b""
        self.requests[connection] += piece
        if piece and END not in self.requests[connection] and len(self.requests[connection]) < REQUEST:
            return
        if END in self.requests[connection]:
            self.answer(connection)
        self.close(connection)

    def answer(self, connection: socket.socket) -> None:
        page = self.page()
        with contextlib.suppress(OSError):
            # (a reader that doesn't read is left)
            connection.settimeout(LOOK_SECONDS)
            connection.sendall(HEAD.format(len(page)).encode() + page)

    def close(self, connection: socket.socket) -> None:
        self.opened.pop(connection, None)
        self.requests.pop(connection, None)
        self.selector.unregister(connection)
        connection.close()
