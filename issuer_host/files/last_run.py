"""Which files a partition's last run had: a mark outside their folder, since a disk may go away over an older copy.

The file has the name of the run, which the mark beside the journals has too (`run_mark`), and a line for each journal:
the shard, the device and the inode. A careful start writes it anew. Files of another device or inode are refused,
unless the last run ended over them and they were moved or copied since: then the mark beside them has the run's name.
"""
import os
import re
from collections.abc import Mapping
from typing import NamedTuple, Optional

from issuer_host.facts.faults import refuse_if_lasting
from issuer_host.facts.journals import journal_path
from issuer_host.facts.refusal import Refusal
from issuer_host.files.open_journals import inode_of
from issuer_host.files.placement import put_in_place
from issuer_host.files.regular_files import open_regular
from issuer_host.files.run_mark import RunMark, new_run

FIRST = re.compile(r"run ([0-9a-f]{16})")
LINE = re.compile(r"(\d{1,2}) (\d{1,20}) (\d{1,20})")
MOST = 4096

Places = Mapping[int, tuple[int, int]]


class LastRun(NamedTuple):
    """A run, and the devices and inodes of its journals by shard."""

    name: str
    places: Places


def read(path: str) -> Optional[LastRun]:
    """Returns what a file says; None if there is none. A file of another form is refused."""
    try:
        with open(open_regular(path, os.O_RDONLY), encoding="latin-1") as text:
            first, *others = text.read(MOST).splitlines() or [""]
    except FileNotFoundError:
        return None
    except OSError as fault:
        refuse_if_lasting(fault, f"{path}: {fault.strerror}")
        raise
    name, lines = FIRST.fullmatch(first), [LINE.fullmatch(line) for line in others]
    if name is None or None in lines:
        what = "look whether the journals are the right ones, and remove it"
        raise Refusal(f"{path} doesn't say which journals the last run had: {what}")
    return LastRun(name[1], {int(line[1]): (int(line[2]), int(line[3])) for line in lines if line})


def places_of(name: str, shards: int) -> Places:
    return {shard: inode_of(journal_path(name, shard)) for shard in range(shards)}


def check(path: str, name: str, shards: int, mark: RunMark) -> None:
    """Refuses other journals than the partition's last run had, but for those that it left and that were moved."""
    last = read(path)
    if last is None or last.places == places_of(name, shards):
        return
    if mark.run() == last.name and not any(left.may_have_grown for left in mark.left().values()):
        return
    raise Refusal(
        f"the journals {name} aren't the files that the partition's last run had: is their disk mounted? What that run"
        f" recorded would be decided again. Put back those that {path} names by device and inode. If these are the"
        f" right ones, as after a restore, remove {path}"
    )


def write(path: str, name: str, shards: int) -> str:
    """Writes which journals a run has that begins now. Returns the run's name."""
    found = LastRun(new_run(), places_of(name, shards))
    lines = [f"{shard} {device} {inode}\n" for shard, (device, inode) in found.places.items()]
    try:
        put_in_place(path, f"run {found.name}\n{''.join(lines)}")
    except OSError as fault:
        refuse_if_lasting(fault, f"the journals of this run can't be noted in {path}: {fault.strerror}")
        raise
    return found.name
