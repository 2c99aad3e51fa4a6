"""Whether the built programs are the proved ones of the sources at hand."""
import contextlib
import hashlib
import json
import os
from typing import Any, Optional

from issuer_host.facts.paths import BUILD, HOME, HOST, PROGRAM, PROGRAMS, RECORD
from issuer_host.facts.proof import read_record
from issuer_host.files.placement import put_in_place
from issuer_host.launcher.sources import PROOF_PARTS, crates_below, files_of, sources_of, sum_or_word
from issuer_host.launcher.toolchain import kit_of, toolchain

# The files' times and sizes at the last comparison of their sums with the record's.
STAMPS = os.path.join(BUILD, "issuer.stamps")
NO_PROGRAM = "no proved program is built"
NOT_THE_PROVED = "the program {} in .build isn't the one that was proved"

# What tells whether a file was touched; None if it doesn't exist.
Stamp = Optional[list[int]]


def sum_of_proof(sources: dict[str, str], kit: str) -> str:
    """Returns the one sum that stands for these sources and the toolchain's identity."""
    return hashlib.sha256(json.dumps([sorted(sources.items()), kit]).encode()).hexdigest()


def stamp_of(path: str) -> Stamp:
    try:
        found = os.stat(path)
    except OSError:
        return None
    return [found.st_size, found.st_mtime_ns, found.st_ctime_ns, found.st_ino]


def stamps() -> dict[str, Stamp]:
    """Returns what tells whether a source, a program or the toolchain was touched. It reads none but crates.txt."""
    paths = [f"{HOME}/crates.txt", f"{HOME}/HANDLES", RECORD, *(program.path for program in PROGRAMS)]
    for crate in crates_below(HOME):
        paths += files_of(HOME, crate, PROOF_PARTS)
    rt = toolchain()
    if rt:
        paths.append(os.path.realpath(rt))
    return {path: stamp_of(path) for path in paths}


def write_json(path: str, value: dict[str, Any]) -> None:
    """Writes a file whole, or leaves it as it was."""
    with contextlib.suppress(OSError):
        # (another user may run the program)
        put_in_place(path, json.dumps(value), 0o644)


def why_unproved() -> Optional[str]:
    """Returns why the built programs aren't the proved ones of these sources, or None if they are."""
    record = read_record()
    if not os.path.isfile(PROGRAM) or "sources" not in record:
        return NO_PROGRAM
    if not os.path.exists(f"{HOME}/crates.txt"):
        # An installed copy has no sources that could have changed.
        return why_another(record, BUILD)
    now, seen = stamps(), read_record(STAMPS)
    if seen.get("sum") == record.get("sum") and seen.get("files") == now:
        return None
    why = why_changed(record)
    if why is None:
        write_json(STAMPS, {"sum": record.get("sum"), "files": now})
    return why


def why_another(record: dict[str, Any], folder: str) -> Optional[str]:
    """Returns which program of a folder isn't the one that was proved; None if each is that one."""
    for program in PROGRAMS:
        named = record.get(program.member)
        if (named or program is HOST) and sum_or_word(os.path.join(folder, program.file)) != named:
            return NOT_THE_PROVED.format(program.file)
    return None


def why_changed(record: dict[str, Any], folder: str = BUILD) -> Optional[str]:
    """Returns what isn't as the record of the proof says: a program, a source or the toolchain; None if all is."""
    why = why_another(record, folder)
    if why is not None:
        return why
    proved, sources = record.get("sources", {}), sources_of(HOME)
    changed = [name for name in {**proved, **sources} if proved.get(name) != sources.get(name)]
    if changed:
        more = f" and {len(changed) - 1} more" if len(changed) > 1 else ""
        return f"{changed[0]}{more} changed since the program was proved"
    rt = toolchain()
    kit = kit_of(rt) if rt else None
    if kit and kit != record.get("kit"):
        return f"the toolchain is {kit}, and the program was proved with {record.get('kit')}"
    return None
