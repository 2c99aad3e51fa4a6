"""Copies a partition's journals while their host runs, loads the copy, and writes when that was for Prometheus.

usage: backup --config FILE --journal NAME --to FOLDER [--keep N] [--figures FILE] [--partition N] [--program PATH]

--to       the folder of the partition's copies: each is a folder of its own, named by its time (UTC)
--keep     how many copies are kept, the newest ones (7)
--figures  a file for the text file collector of Prometheus' node exporter: when the last copy was made that loads

The copy has what the position counts, if there is one, and seals of no record that it lacks. It is made durable, and
loaded by the program before it gets its name: a copy that doesn't load is removed, the ones before stay, and the status
is 1. Run it by a timer, as the journals' user.
"""
import argparse
import os
import shutil
import tempfile
import time
from collections.abc import Sequence
from typing import NamedTuple, Optional

from issuer_host.facts.journals import POSITION, journals_of
from issuer_host.facts.refusal import Refusal, tell
from issuer_host.files.placement import move_in_place
from issuer_host.files.seals import seals_path
from issuer_host.host import offline
from issuer_host.telling import textfile

NAME = "backup"
WORK = ".work"
# The name of a copy; one that isn't whole has no such name.
FORM = "%Y-%m-%dT%H-%M-%SZ"


class BackupOptions(NamedTuple):
    """The words of the command."""

    config: str
    journal: str
    to: str
    keep: int
    figures: str
    partition: int
    program: Optional[str]


def options_of(words: Sequence[str]) -> BackupOptions:
    parser = argparse.ArgumentParser(usage=__doc__)
    parser.add_argument("--config", required=True)
    parser.add_argument("--journal", required=True)
    parser.add_argument("--to", required=True)
    parser.add_argument("--keep", type=int, default=7)
    parser.add_argument("--figures", default="")
    parser.add_argument("--partition", type=int, default=0)
    parser.add_argument("--program")
    options = BackupOptions(**vars(parser.parse_args(words)))
    if options.keep < 1:
        parser.error("--keep is 1 at least")
    return options


def paths_of(journal: str) -> list[str]:
    """Returns what is copied, in its order: what counts or seals records goes before the records."""
    journals = journals_of(journal)
    if not journals:
        raise Refusal(f"no journal {journal} is there: is its disk mounted?")
    before = [journal + POSITION, *map(seals_path, journals)]
    return [path for path in (*before, *journals, journal + WORK) if os.path.exists(path)]


def copy(path: str, folder: str) -> None:
    """Copies a file durably."""
    to = os.path.join(folder, os.path.basename(path))
    shutil.copyfile(path, to)
    sync(to)


def sync(path: str) -> None:
    file = os.open(path, os.O_RDONLY)
    try:
        os.fsync(file)
    finally:
        os.close(file)


def cards_in(options: BackupOptions, copied: str) -> int:
    """Loads a copy of the copy, and returns how many cards it has. (A start writes beside its journals.)"""
    with tempfile.TemporaryDirectory(prefix=".loading-", dir=options.to) as room:
        for name in os.listdir(copied):
            if not name.endswith(POSITION):
                shutil.copyfile(os.path.join(copied, name), os.path.join(room, name))
        journal = os.path.join(room, os.path.basename(options.journal))
        return len(offline.show(options.config, journal, options.program))


def back_up(options: BackupOptions) -> None:
    os.makedirs(options.to, mode=0o700, exist_ok=True)
    name = time.strftime(FORM, time.gmtime())
    with tempfile.TemporaryDirectory(prefix=".copying-", dir=options.to) as room:
        copied = os.path.join(room, name)
        os.mkdir(copied, mode=0o700)
        for path in paths_of(options.journal):
            copy(path, copied)
        sync(copied)
        cards = cards_in(options, copied)
        move_in_place(copied, os.path.join(options.to, name))
    for old in copies_of(options.to)[: -options.keep]:
        shutil.rmtree(os.path.join(options.to, old))
    if options.figures:
        textfile.write(
            options.figures, {"partition": str(options.partition)}, {"issuer_backup_seconds": textfile.now()}
        )
    print(f"{name} has {cards} cards, and loads")


def copies_of(folder: str) -> list[str]:
    """Returns the names of the copies of a folder, the oldest first."""
    found = []
    for name in os.listdir(folder):
        try:
            time.strptime(name, FORM)
        except ValueError:
            continue
        found.append(name)
    return sorted(found)


def main(words: Sequence[str]) -> int:
    options = options_of(words)
    os.umask(0o077)
    try:
        back_up(options)
    except (offline.Failed, Refusal) as fault:
        tell(NAME, str(fault))
        return 1
    except OSError as fault:
        tell(NAME, f"{fault.filename or 'the copy'}: {fault.strerror}")
        return 1
    return 0
