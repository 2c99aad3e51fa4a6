"""The refusals of deploy/issuer-run before the built program, and the starts that it lets pass; deploy/look."""
import contextlib
import fcntl
import os
import stat
import subprocess

from checks import Tally, check_of
from deployment.running import Host, is_refused, new_host, run
from issuer_host.facts.journals import VERSION_LINE
from issuer_host.facts.proof import is_proved
from issuer_host.facts.statuses import Status
from runs import PANS, SHARDS, content_of, write_text


def begins_once(tally: Tally) -> None:
    """Journals are created where --begin says so, once, and no other user can read them."""
    with new_host(tally) as host:
        is_refused(tally, host.start(), "no journal", "--begin", "mounted")
        ran = run(tally, "issuer-run", *host.program, "show", *host.files(f"{host.folder}/nowhere/journal"))
        is_refused(tally, ran, "no folder", "mounted")
        ran = host.start("--begin")
        tally.expect((ran.returncode, len(ran.stdout.splitlines())), (0, len(PANS)), f"a begin, with {ran.stderr!r}")
        modes = {os.stat(host.journal(shard)).st_mode & 0o777 for shard in range(SHARDS)}
        tally.expect(modes, {0o600}, "the modes of the journals")
        is_refused(tally, host.start("--begin"), "a second begin", "leave the word out")
        tally.expect(host.start().returncode, Status.OK, "the status once all journals are there")


def serves(tally: Tally) -> None:
    """A run answers a line from its standard input."""
    with new_host(tally) as host:
        ran = host.begun().start(command="serve", more=("--requests", "/dev/stdin"), input=f"S {PANS[0]} 00 7\n")
        tally.expect((ran.returncode, ran.stdout), (0, "set 0 0\n"), f"a run, with {ran.stderr!r}")


def says_that_a_program_is_another(tally: Tally) -> None:
    """A start that answers says if its program isn't the proved one; one that only shows cards doesn't."""
    with new_host(tally) as host:
        another = os.path.join(host.folder, "another")
        with open(another, "w", encoding="utf-8") as text:
            text.write(f'#!/bin/sh\nexec {tally.program} "$@"\n')
        os.chmod(another, 0o755)
        files = host.begun().files()
        ran = run(tally, "issuer-run", "--program", another, "serve", *files, "--requests", "/dev/null")
        tally.expect((ran.returncode, ran.stderr.count("isn't the proved program")), (0, 1), f"serve: {ran.stderr!r}")
        ran = run(tally, "issuer-run", "--program", another, "show", *files)
        tally.expect((ran.returncode, ran.stderr), (0, ""), "show")


def runs_the_proved_program(tally: Tally) -> None:
    """Without --program the proved program runs, or none if there is none."""
    with new_host(tally) as host:
        ran = run(tally, "issuer-run", "show", *host.begun().files())
        tally.expect(
            ran.returncode, Status.OK if is_proved() else Status.NO_PROGRAM, f"the status, with {ran.stderr!r}"
        )


def refuses_a_missing_journal(tally: Tally) -> None:
    """A shard's journal is missing, and another one exists."""
    with new_host(tally) as host:
        host.begun()
        os.rename(host.journal(1), f"{host.folder}/away")
        is_refused(tally, host.start(), "a missing journal", "is missing", "Restore")
        os.rename(f"{host.folder}/away", host.journal(1))
        tally.expect(host.start().returncode, Status.OK, "the status once the journal is back")


def refuses_journals_whose_seals_are_left(tally: Tally) -> None:
    """All journals are missing and their seals are there: no word begins over that, and nothing is created."""
    with new_host(tally) as host:
        host.begun()
        journals = [host.journal(shard) for shard in range(SHARDS)]
        for path in journals:
            os.remove(path)
            write_text(host.folder, f"{path}.seals", "a seal\n")
            # (as the program leaves them, where nothing of version 1 was there)
            write_text(host.folder, path.removesuffix(".v2"), "")
        for words in ((), ("--begin",)):
            ran = host.start(*words)
            is_refused(tally, ran, f"a start with {words}", "is missing", "has seals", "Restore")
            tally.holds("version 1" not in ran.stderr, f"old ones that are empty: {ran.stderr!r}")
            tally.expect([path for path in journals if os.path.exists(path)], [], f"journals that {words} left")


def refuses_a_journal_past_the_shards(tally: Tally) -> None:
    """A journal, or an old one, of a shard that the configuration doesn't have."""
    with new_host(tally) as host:
        host.begun()
        for path in (host.old_journal(SHARDS), host.journal(SHARDS)):
            write_text(host.folder, path, "")
            is_refused(tally, host.start(), "a journal past the shards", os.path.basename(path), f"{SHARDS} shards")
            os.remove(path)


def refuses_open_files(tally: Tally) -> None:
    """A journal or a pipe of requests that other users can open."""
    with new_host(tally) as host:
        os.chmod(host.begun().journal(0), 0o640)
        is_refused(tally, host.start(), "an open journal", "chmod 600")
        os.chmod(host.journal(0), 0o600)
        pipe = os.path.join(host.folder, "pipe")
        os.mkfifo(pipe, 0o600)
        os.chmod(pipe, 0o620)
        is_refused(tally, host.start(command="serve", more=("--requests", pipe)), "an open pipe", "chmod 600")


def put_instead(path: str, what: str) -> None:
    if what == "pipe":
        os.mkfifo(path)
    elif what == "folder":
        os.mkdir(path)
    else:
        os.symlink("/dev/zero", path)


def refuses_what_is_no_file_beside(tally: Tally) -> None:
    """A pipe, a folder or a link in place of a file beside the journals hangs no start, and is named."""
    for ending in (".00.v2.seals", ".run", ".position", ".audit"):
        for what in ("pipe", "folder", "link"):
            with new_host(tally) as host:
                path = f"{host.begun().name}{ending}"
                with contextlib.suppress(FileNotFoundError):
                    os.remove(path)
                put_instead(path, what)
                ran = host.start(timeout=60)
                if ending == ".audit":
                    tally.expect(ran.returncode, Status.OK, f"a start beside a {what} {ending}, with {ran.stderr!r}")
                else:
                    is_refused(tally, ran, f"a {what} {ending}", os.path.basename(path), "is no regular file", "move")


def refuses_open_files_beside(tally: Tally) -> None:
    """Seals, mark and position that others could write are refused as journals are."""
    for ending in (".01.v2.seals", ".run", ".position"):
        with new_host(tally) as host:
            path = f"{host.begun().name}{ending}"
            with open(path, "a", encoding="ascii"):
                os.chmod(path, 0o666)
            is_refused(tally, host.start(), f"an open {ending}", os.path.basename(path), "chmod 600")


def close_input() -> None:
    os.close(0)


def refuses_a_closed_input(tally: Tally) -> None:
    """The standard input is closed, so that a journal would take its place."""
    with new_host(tally) as host:
        ran = host.begun().start(preexec_fn=close_input, stdin=subprocess.DEVNULL)
        is_refused(tally, ran, "a closed input", "standard input")


def write_old_journals(host: Host) -> list[str]:
    """Writes an old journal of each shard, with a status of one card. Returns their texts."""
    texts = [f"s {pan}ffff 00 {5 + shard}\n" for shard, pan in enumerate(PANS[:SHARDS])]
    for shard, text in enumerate(texts):
        os.close(os.open(host.old_journal(shard), os.O_CREAT, 0o600))
        write_text(host.folder, host.old_journal(shard), text)
    return texts


def refuses_old_journals(tally: Tally) -> None:
    """Old journals, of version 1, aren't copied without --begin, nor while one of them is missing."""
    with new_host(tally, "old") as host:
        write_old_journals(host)
        is_refused(tally, host.start(), "old journals without a begin", "--begin", "version 1")
        os.rename(host.old_journal(1), f"{host.folder}/away")
        is_refused(tally, host.start("--begin"), "a missing old journal", "old.01", "restore")


def copies_old_journals(tally: Tally) -> None:
    """A begin over old journals copies their records, and leaves them as they are."""
    with new_host(tally, "old") as host:
        texts = write_old_journals(host)
        ran = host.start("--begin")
        is_shown = "status 5" in ran.stdout and "status 6" in ran.stdout
        tally.holds(ran.returncode == 0 and is_shown, f"a begin over old journals: {ran.stdout!r} {ran.stderr!r}")
        for shard, text in enumerate(texts):
            found = [content_of(host.old_journal(shard)), content_of(host.journal(shard))]
            tally.expect(found, [text, VERSION_LINE + text], f"the journals of shard {shard} after a begin")
        tally.expect(host.start().returncode, Status.OK, "the status of a start after the copy")


def looks_beside_a_host(tally: Tally) -> None:
    """deploy/look counts the cards beside a host that has the journals open, and has records."""
    with new_host(tally) as host, open(host.begun().journal(0), "rb") as held:
        lines = "".join(f"S {PANS[0]} 00 {number}\n" for number in range(3))
        tally.expect(host.start(command="serve", more=("--requests", "/dev/stdin"), input=lines).returncode, 0, "a run")
        tally.expect(host.start().returncode, 0, "a start that seals")
        fcntl.flock(held, fcntl.LOCK_EX)
        figures = os.path.join(host.folder, "figures")
        ran = run(tally, "look", *host.program, *host.files(), "--figures", figures, "--partition", "3")
        tally.expect(ran.stdout, f"{len(PANS)} cards, 0 of them with halted scripts\n", f"a look, with {ran.stderr!r}")
        told = content_of(figures)
        tally.holds('issuer_cards_halted{partition="3"} 0.0\n' in told, f"the figures of a look: {told!r}")


def follows_no_link(tally: Tally) -> None:
    """A link that stands where a look writes its new figures is removed, and what it leads to stays as it is."""
    with new_host(tally) as host:
        figures, kept = f"{host.begun().folder}/figures", f"{host.folder}/kept"
        with open(kept, "w", encoding="ascii") as text:
            text.write("kept")
        os.chmod(kept, 0o600)
        os.symlink(kept, f"{figures}.new")
        ran = run(tally, "look", *host.program, *host.files(), "--figures", figures)
        told = [ran.returncode, os.path.islink(figures), stat.S_IMODE(os.stat(figures).st_mode)]
        tally.expect(told, [Status.OK, False, 0o644], "the figures beside a link: status, a link, mode")
        found = [content_of(kept), stat.S_IMODE(os.stat(kept).st_mode)]
        tally.expect(found, ["kept", 0o600], "what the link leads to")


CHECKS = [
    check_of(body)
    for body in (
        begins_once,
        serves,
        says_that_a_program_is_another,
        runs_the_proved_program,
        refuses_a_missing_journal,
        refuses_journals_whose_seals_are_left,
        refuses_a_journal_past_the_shards,
        refuses_open_files,
        refuses_what_is_no_file_beside,
        refuses_open_files_beside,
        refuses_a_closed_input,
        refuses_old_journals,
        copies_old_journals,
        looks_beside_a_host,
        follows_no_link,
    )
]
