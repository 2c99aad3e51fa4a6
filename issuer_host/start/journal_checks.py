"""Which states of the journals a start refuses, and how the first ones are created."""
import os
from collections.abc import Sequence

from issuer_host.facts.faults import refuse_if_lasting
from issuer_host.facts.journals import (
    POSITION,
    Shards,
    VERSION_LINE,
    journal_path,
    journals_of,
    old_journal_path,
    shards_of_files,
)
from issuer_host.facts.refusal import Refusal
from issuer_host.files.folders import sync_folder
from issuer_host.files.private_files import check_private
from issuer_host.files.run_mark import mark_path
from issuer_host.files.seals import ACCEPTS, seals_path


def check_journals(name: str, shards: int, begins: bool, accepts: bool) -> None:
    """Refuses any state of the journals but all of them, or none and the word to begin."""
    found = found_journals(name)
    check_past(name, shards, found)
    olds = [old_journal_path(name, shard) for shard in found.olds]
    check_olds(olds, [old_journal_path(name, shard) for shard in range(shards) if shard not in found.olds])
    missing = [shard for shard in range(shards) if shard not in found.journals]
    if found.journals and missing:
        refuse_missing(name, shards, found, missing[0])
    if missing:
        refuse_lost(name, missing)
    if missing and not begins:
        # (empty old ones are of this program's own run)
        refuse_none(name, any(map(os.path.getsize, olds)))
    if found.journals and begins:
        raise Refusal(f"--begin was given, but the journals {name} exist: leave the word out")
    if missing:
        create_journals(name, shards)
    for path in journals_of(name):
        check_private(path, "journal")
    beside = [mark_path(name), name + POSITION, *(seals_path(journal_path(name, shard)) for shard in range(shards))]
    for path in filter(os.path.lexists, beside):
        check_private(path, "file")
    if not accepts:
        check_empty(name, shards)


def check_empty(name: str, shards: int) -> None:
    """Refuses a journal without its first line where another has records: each start writes that line to all."""
    sizes = {shard: os.path.getsize(journal_path(name, shard)) for shard in range(shards)}
    if max(sizes.values()) <= len(VERSION_LINE):
        return
    for shard, size in sizes.items():
        # (records of an old journal are copied shard by shard)
        if not size and not bytes_of(old_journal_path(name, shard)):
            raise Refusal(
                f"{journal_path(name, shard)} is empty, and others have records: what it recorded would be decided"
                f" again. Restore it from a copy. If it is right as it is, add {ACCEPTS}, once"
            )


def refuse_replicated(name: str) -> None:
    """Refuses journals that a node writes by the order of a stream: a record beside it counts nowhere."""
    if os.path.exists(name + POSITION):
        raise Refusal(
            f"the journals {name} are replicated, as {name}{POSITION} says: deploy/node alone runs a host over them,"
            " and takes orders at its sockets"
        )


def bytes_of(path: str) -> int:
    try:
        return os.path.getsize(path)
    except FileNotFoundError:
        return 0


def found_journals(name: str) -> Shards:
    try:
        return shards_of_files(name)
    except OSError as fault:
        folder = os.path.dirname(name) or "."
        what = f"the folder {folder} of the journals can't be read ({fault.strerror}): is its disk mounted?"
        refuse_if_lasting(fault, what)
        raise


def check_past(name: str, shards: int, found: Shards) -> None:
    """Refuses journals past the configuration's shards."""
    past = [old_journal_path(name, shard) for shard in found.olds if shard >= shards]
    past += [journal_path(name, shard) for shard in found.journals if shard >= shards]
    if past:
        raise Refusal(
            f"{past[0]} exists, but the configuration has {shards} shard{'s' * (shards > 1)}: what it records would be"
            " decided again. Use the configuration that wrote it; deploy/repartition moves journals to another number"
            " of shards"
        )


def check_olds(found: Sequence[str], missing: Sequence[str]) -> None:
    """Refuses old journals of which some are missing: their records may not be copied yet."""
    if missing and any(os.path.getsize(path) for path in found):
        raise Refusal(
            f"the old journal {missing[0]} is missing, and others of version 1 exist: restore it from a copy, or mount"
            " its disk; don't create it"
        )


def refuse_missing(name: str, shards: int, found: Shards, missing: int) -> None:
    """Refuses a start without one of the journals."""
    path = journal_path(name, missing)
    why = f"{path} is missing, and {len(found.journals)} of {shards} journals exist"
    if not any(os.path.getsize(journal_path(name, shard)) for shard in found.journals):
        what = "all empty: a begin was interrupted. Remove the empty ones, and begin again with --begin"
        raise Refusal(f"{why}, {what}")
    what = "its records would be decided again. Restore it from a copy, or mount its disk; don't create it"
    raise Refusal(f"{why}: {what}")


def refuse_lost(name: str, missing: Sequence[int]) -> None:
    """Refuses a start without journals whose seals are there, also with the word to begin. It creates nothing then."""
    for shard in missing:
        seals = seals_path(journal_path(name, shard))
        if os.path.exists(seals) and os.path.getsize(seals):
            raise Refusal(
                f"{journal_path(name, shard)} is missing, and {seals} has seals of its records: they would be decided"
                " again. Restore the journals from a copy, or mount their disk"
            )


def refuse_none(name: str, are_olds: bool) -> None:
    """Refuses a start without any journal, and without the word to begin."""
    first = journal_path(name, 0)
    if are_olds:
        raise Refusal(
            f"no journal {first} exists, but old ones of version 1 do: if this program never ran over them, add"
            " --begin, once, and their records are copied. If it did, restore the journals from a copy: what it"
            " recorded since would be decided again"
        )
    what = "is the disk mounted, and is the name right? To begin with empty journals, once, add --begin"
    raise Refusal(f"no journal {first} exists: {what}")


def create_journals(name: str, shards: int) -> None:
    """Creates empty journals, durably."""
    folder = os.path.dirname(name) or "."
    flags = os.O_CREAT | os.O_EXCL | os.O_WRONLY | os.O_CLOEXEC
    try:
        for shard in range(shards):
            os.close(os.open(journal_path(name, shard), flags, 0o600))
        sync_folder(folder)
    except OSError as fault:
        raise Refusal(f"the journals can't be created in {folder}: {fault.strerror}") from fault
