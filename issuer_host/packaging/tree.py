"""The files of a package, below a folder."""
import gzip
import os
import time
from typing import Union

from issuer_host.facts.paths import HOME


class Tree:
    def __init__(self, root: str, epoch: int, version: str) -> None:
        self.root = root
        # The time of all files, in seconds of Unix.
        self.epoch = epoch
        self.version = version

    def write(self, path: str, data: Union[bytes, str], mode: int = 0o644) -> None:
        full = os.path.join(self.root, path)
        os.makedirs(os.path.dirname(full), exist_ok=True)
        with open(full, "wb") as to:
            to.write(data.encode() if isinstance(data, str) else data)
        os.chmod(full, mode)

    def copy(self, source: str, path: str, mode: int = 0o644) -> None:
        with open(source, "rb") as data:
            self.write(path, data.read(), mode)

    def compress(self, path: str, data: bytes) -> None:
        self.write(path, gzip.compress(data, mtime=0))

    def link(self, path: str, to: str) -> None:
        full = os.path.join(self.root, path)
        os.makedirs(os.path.dirname(full), exist_ok=True)
        os.symlink(to, full)

    def page(self, name: str) -> None:
        """A manual page, with the package's version and date."""
        with open(os.path.join(HOME, "deploy/man", name), encoding="utf-8") as text:
            date = time.strftime("%Y-%m-%d", time.gmtime(self.epoch))
            filled = text.read().replace("@VERSION@", self.version).replace("@DATE@", date)
        self.compress(f"usr/share/man/man{name[-1]}/{name}.gz", filled.encode())

    def files(self) -> list[str]:
        """Returns the paths of all files but links, in order."""
        found = [os.path.join(at, name) for at, _, names in os.walk(self.root) for name in names]
        return sorted(os.path.relpath(path, self.root) for path in found if not os.path.islink(path))
