"""An installed copy of what the package has, and its upgrade as dpkg does it: file by file, each by a rename."""
import json
import os
import shutil
import time

from issuer_host.facts.paths import HOME
from issuer_host.facts.proof import sum_of
from issuer_host.launcher.sources import sources_of
from issuer_host.launcher.toolchain import kit_of, toolchain
from issuer_host.packaging.make_deb import PRIVATE, add_commands, add_package, add_programs
from issuer_host.packaging.tree import Tree

NEW = ".dpkg-new"
# Between the program and the record of its proof, so that a start falls between them.
GAP_SECONDS = 1.0
RECORD = ".build/issuer.proved"


def record_of(program: str) -> "dict[str, object]":
    """Returns a record as a proof of these sources leaves it, for a program that a trial stands on."""
    rt = toolchain()
    return {"program": sum_of(program), "sources": sources_of(HOME), "kit": kit_of(rt) if rt else None}


class Installed:
    """The package's files below a folder. Each version's program has other bytes than those before it."""

    def __init__(self, room: str, program: str) -> None:
        self.room = room
        self.program = program
        self.version = 0
        self.root = os.path.join(room, "installed")
        self.home = os.path.join(self.root, PRIVATE)
        self.unpack().rename_all(self.root)

    def command(self, name: str) -> str:
        return os.path.join(self.home, "deploy", name)

    def unpack(self) -> "Unpacked":
        """Makes the files of the next version."""
        self.version += 1
        built = os.path.join(self.room, f"built-{self.version}")
        os.makedirs(built)
        path = os.path.join(built, "issuer")
        shutil.copy(self.program, path)
        with open(path, "ab") as program:
            # (the loader reads nothing after the end)
            program.write(bytes(self.version))
        with open(f"{path}.proved", "w", encoding="utf-8") as record:
            json.dump(record_of(path), record)
        tree = Tree(os.path.join(self.room, f"version-{self.version}"), int(time.time()), str(self.version))
        add_programs(tree, built)
        add_package(tree)
        add_commands(tree)
        shutil.rmtree(built)
        return Unpacked(tree)

    def upgrade(self) -> None:
        """Puts the next version in place while the one before it runs."""
        self.unpack().rename_all(self.root, GAP_SECONDS)


class Unpacked:
    """A version that isn't in place."""

    def __init__(self, tree: Tree) -> None:
        self.tree = tree

    def rename_all(self, root: str, gap: float = 0.0) -> None:
        """Copies all files beside those in place, and renames one after another."""
        paths = self.tree.files()
        for path in paths:
            to = os.path.join(root, path)
            os.makedirs(os.path.dirname(to), exist_ok=True)
            shutil.copy(os.path.join(self.tree.root, path), to + NEW)
        for path in paths:
            if path.endswith(RECORD):
                time.sleep(gap)
            os.rename(os.path.join(root, path + NEW), os.path.join(root, path))
        shutil.rmtree(self.tree.root)
