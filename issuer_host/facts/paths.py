"""Where the tree or an installed copy of it lies, and in it the proved programs and the record of their proof."""
import os
from typing import NamedTuple

# The folder that holds this package: the top of the tree, or the folder of an installed copy.
HOME = os.path.dirname(os.path.dirname(os.path.dirname(os.path.realpath(__file__))))

# The folders of docs/ by who reads them, and in them the pages, by patterns from HOME.
PAGE_FOLDERS = ("start", "integrate", "operate", "formats", "assurance", "develop")
PAGES_OF_DOCS = (*(f"docs/{folder}/*.md" for folder in PAGE_FOLDERS), "docs/develop/decisions/*.md")

# Where `./issuer prove` leaves the programs and the record of their proof. An installed copy has the same files.
BUILD = os.path.join(HOME, ".build")
RECORD = os.path.join(BUILD, "issuer.proved")


class ProgramName(NamedTuple):
    """A program: the crate that has its `main`, its file in BUILD, and the member of RECORD that has its sum."""

    top: str
    file: str
    member: str

    @property
    def path(self) -> str:
        return os.path.join(BUILD, self.file)

    @property
    def gate_path(self) -> str:
        """Where `rt ci` leaves the program."""
        return os.path.join(HOME, "crates", self.top, "out", self.top)

    def built(self) -> str:
        """Returns the path of the built program: the later one if both places have one."""
        return max(
            (self.gate_path, self.path), key=lambda path: os.path.getmtime(path) if os.path.exists(path) else 0.0
        )


# The host, and the program that decides by the rule of several machines.
HOST = ProgramName("issuer_main", "issuer", "program")
RULE = ProgramName("bridge_main", "issuer-rule", "rule")
PROGRAMS = (HOST, RULE)
PROGRAM = HOST.path


def built_program() -> str:
    """Returns the path of the built host."""
    return HOST.built()
