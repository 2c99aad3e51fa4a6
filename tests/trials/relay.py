"""A way to a port of this machine that can be held up: nothing passes then, and no connection ends."""
import contextlib
import socket
import threading


class Relay:
    """Connections to its port go on to another one of the loopback."""

    def __init__(self, port: int) -> None:
        self.to = port
        self.passes = threading.Event()
        self.passes.set()
        self.socket = socket.create_server(("127.0.0.1", 0))
        self.port: int = self.socket.getsockname()[1]

    def __enter__(self) -> "Relay":
        threading.Thread(target=self.accept, daemon=True).start()
        return self

    def __exit__(self, *_: object) -> None:
        self.passes.set()
        self.socket.close()

    def hold(self) -> None:
        self.passes.clear()

    def go_on(self) -> None:
        self.passes.set()

    def accept(self) -> None:
        with contextlib.suppress(OSError):
            while True:
                one = self.socket.accept()[0]
                other = socket.create_connection(("127.0.0.1", self.to))
                for ends in ((one, other), (other, one)):
                    threading.Thread(target=self.carry, args=ends, daemon=True).start()

    def carry(self, come: socket.socket, to: socket.socket) -> None:
        with contextlib.suppress(OSError):
            while data := come.recv(1 << 16):
                self.passes.wait()
                to.sendall(data)
            to.shutdown(socket.SHUT_WR)
