"""Whether the journals are what the last run left: their records, their lengths, what follows their last newlines."""
import errno
import fcntl
import os
import time
from collections.abc import Sequence
from typing import Optional

from issuer_host.facts.journals import journal_path, old_journal_path
from issuer_host.facts.refusal import tell
from issuer_host.files import last_run
from issuer_host.files.regular_files import open_regular
from issuer_host.files.run_mark import RunMark, lock_mark, mark_path, new_run
from issuer_host.files.seals import Left, check_sealed
from issuer_host.start.journal_checks import bytes_of
from issuer_host.start.workers import do_all

NAME = "issuer-run"
# The commands that add records.
APPENDING = ("serve", "standby")
# How long another start may check the journals, and how often it is looked for.
MOST_SECONDS = 600.0
LOOK_SECONDS = 0.2
# So many bytes of journals are checked in a fraction of a second.
SMALL_BYTES = 1 << 24


def check_history(command: str, name: str, shards: int, accepts: bool, last: str = "") -> None:
    """Refuses journals that aren't what the last run left, and marks that a run begins.

    `last` is a file outside the journals' folder that says which ones the partition's last run had. Journals that a run
    has open aren't looked at: the program itself refuses the start.
    """
    mark = mark_of(name, shards)
    if mark is None:
        return
    if last and not accepts:
        last_run.check(last, name, shards, mark)
    left = {} if accepts else mark.left()
    paths = {journal_path(name, shard): left.get(shard) for shard in range(shards)}

    def check(path: str) -> None:
        check_journal(path, paths[path], accepts)

    do_all(list(paths), check, processes_for(list(paths)))
    run = last_run.write(last, name, shards) if last else new_run()
    if command in APPENDING or any(bytes_of(old_journal_path(name, shard)) for shard in range(shards)):
        mark.has_begun(run)
    else:
        mark.was_checked(run)
    mark.hand_over()


def processes_for(paths: Sequence[str]) -> int:
    """Returns how many processes check journals: one, if there is little to check."""
    if sum(map(bytes_of, paths)) < SMALL_BYTES:
        return 1
    return min(len(paths), len(os.sched_getaffinity(0)))


def check_journal(path: str, left: Optional[Left], accepts: bool) -> None:
    checked = check_sealed(path, left, accepts)
    if checked.torn:
        tell(NAME, f"{checked.torn} bytes of a torn line are at the end of {path}: the start truncates them")


def mark_of(name: str, shards: int) -> Optional[RunMark]:
    """Locks the mark of the journals, after another start that checks them. Returns None if a run has them open."""
    end = time.monotonic() + MOST_SECONDS
    while time.monotonic() < end:
        mark = lock_mark(name)
        # (a look is a lock for a moment, at which another program would end: so it is at one journal, and seldom)
        is_open = any(is_locked(journal_path(name, shard)) for shard in range(shards if mark else 1))
        if mark is not None and is_open:
            # (a run that no careful start began)
            mark.may_append()
            mark.close()
        if is_open:
            return None
        if mark is not None:
            return mark
        time.sleep(LOOK_SECONDS)
    raise TimeoutError(errno.ETIMEDOUT, "another start has checked the journals for too long: find it", mark_path(name))


def is_locked(path: str) -> bool:
    """Whether a program has a journal open."""
    with open(open_regular(path, os.O_RDONLY), "rb") as opened:
        try:
            fcntl.flock(opened, fcntl.LOCK_SH | fcntl.LOCK_NB)
        except BlockingIOError:
            return True
    return False
