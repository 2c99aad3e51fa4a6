"""The program and the oracle side by side: a folder for each with the same files, and what both write and keep."""
import contextlib
import io
import os
from collections.abc import Iterator, Sequence

from checks import Tally
from issuer_host.facts.statuses import Status
from oracle import command_line
from runs import new_folder, words_of, write_bytes

SERVE = words_of("serve", "config", "requests", "journal")
SHOW = words_of("show", "config", "journal")
CLEAR = words_of("clear", "config", "clearing", "journal")
EXPORT = words_of("export", "config", "journal")
STANDBY = words_of("standby", "config", "feed", "journal")
# What the journals' names begin with.
JOURNALS = "journal."


class Pair:
    def __init__(self, tally: Tally, folder: str) -> None:
        self.tally = tally
        self.folders = [os.path.join(folder, name) for name in ("program", "oracle")]
        for name in self.folders:
            os.mkdir(name)

    def put(self, name: str, content: bytes) -> None:
        for folder in self.folders:
            write_bytes(folder, name, content)

    def append(self, name: str, content: bytes) -> None:
        for folder in self.folders:
            with open(os.path.join(folder, name), "ab") as file:
                file.write(content)

    def remove_journals(self) -> None:
        for folder in self.folders:
            for name in os.listdir(folder):
                if name.startswith(JOURNALS):
                    os.remove(os.path.join(folder, name))

    def journals(self, folder: str) -> dict[str, bytes]:
        """The contents of the journals in a folder, old ones too, by their names."""
        contents = {}
        for name in sorted(os.listdir(folder)):
            if name.startswith(JOURNALS):
                with open(os.path.join(folder, name), "rb") as file:
                    contents[name] = file.read()
        return contents

    def kept(self) -> dict[str, bytes]:
        """The journals that the oracle left."""
        return self.journals(self.folders[1])

    def run_oracle(self, words: Sequence[str]) -> tuple[int, bytes]:
        """Runs the oracle in its folder. Returns its status and its output."""
        out = io.BytesIO()
        home = os.getcwd()
        os.chdir(self.folders[1])
        try:
            status = command_line.run(list(words), out)
        finally:
            os.chdir(home)
        return status, out.getvalue()

    def run(self, what: str, words: Sequence[str], by_line: bool = False) -> None:
        """Runs both, and compares output, status and journals. After a bad journal a torn rest may stand or not."""
        ran = self.tally.run_bytes(self.folders[0], words)
        status, output = self.run_oracle(words)
        if by_line:
            pairs = zip(ran.stdout.split(b"\n")[:-1], output.split(b"\n")[:-1])
            for number, (ours, theirs) in enumerate(pairs, 1):
                self.tally.expect(ours, theirs, f"{what}, line {number}, beside the oracle's")
        self.tally.expect(ran.stdout, output, f"{what}, output, beside the oracle's")
        self.tally.expect(ran.returncode, status, f"{what}, status, beside the oracle's")
        ours_kept, theirs_kept = (self.journals(folder) for folder in self.folders)
        if status == Status.JOURNAL_WRONG:
            ours_kept, theirs_kept = whole_lines(ours_kept), whole_lines(theirs_kept)
        self.tally.expect(ours_kept, theirs_kept, f"{what}, journals, beside the oracle's")


def whole_lines(journals: dict[str, bytes]) -> dict[str, bytes]:
    return {name: text[: text.rfind(b"\n") + 1] for name, text in journals.items()}


@contextlib.contextmanager
def new_pair(tally: Tally) -> Iterator[Pair]:
    with new_folder() as folder:
        yield Pair(tally, folder)
