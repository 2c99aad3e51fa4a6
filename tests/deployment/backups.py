"""Copies of journals that deploy/backup makes and loads, and the copies that it keeps."""
import os
import re
import time

from checks import Tally, check_of
from deployment.running import Host, Ran, new_host, run
from issuer_host.commands import backup
from runs import write_text


def back_up(host: Host, keep: int = 7) -> Ran:
    words = ["--to", f"{host.folder}/copies", "--figures", f"{host.folder}/figures", "--keep", str(keep)]
    return run(host.tally, "backup", *host.files(), *words, *host.program)


def copies(host: Host) -> "list[str]":
    """Returns all that is in the folder of copies."""
    return sorted(os.listdir(f"{host.folder}/copies"))


def copies_journals_and_loads_them(tally: Tally) -> None:
    """A copy has journals, seals and what was begun; it is loaded, its time is a figure, and a host starts over it."""
    with new_host(tally) as host:
        tally.expect(host.start("--begin").returncode, 0, "the first start")
        ran = back_up(host)
        tally.holds(ran.returncode == 0 and ran.stdout.endswith(" cards, and loads\n"), f"{ran.stdout} {ran.stderr}")
        found = copies(host)
        tally.expect(len(found), 1, f"the copies: {found}")
        wanted = [os.path.basename(path) for path in backup.paths_of(host.name)]
        tally.expect(sorted(os.listdir(f"{host.folder}/copies/{found[0]}")), sorted(wanted), "the files of the copy")
        for name in wanted:
            with open(f"{host.folder}/{name}", "rb") as first, open(
                f"{host.folder}/copies/{found[0]}/{name}", "rb"
            ) as to:
                tally.expect(to.read(), first.read(), f"the bytes of {name}")
        with open(f"{host.folder}/figures", encoding="utf-8") as text:
            figure = re.search(r'^issuer_backup_seconds\{partition="0"\} ([\d.]+)$', text.read(), re.MULTILINE)
        tally.holds(figure and abs(float(figure[1]) - time.time()) < 600, "the figure of the last copy")
        words = ["--config", host.config, "--journal", f"{host.folder}/copies/{found[0]}/journal"]
        ran = run(tally, "issuer-run", *host.program, "show", *words)
        tally.expect(ran.returncode, 0, f"a start over the copy: {ran.stderr}")


def keeps_the_copies_that_load(tally: Tally) -> None:
    """Journals that don't load leave no copy, and change neither the figure nor the copies of before."""
    with new_host(tally) as host:
        tally.expect(host.start("--begin").returncode, 0, "the first start")
        tally.expect(back_up(host).returncode, 0, "a copy")
        with open(f"{host.folder}/figures", encoding="utf-8") as text:
            before = copies(host), text.read()
        with open(f"{host.name}.00.v2", "ab") as to:
            to.write(b"no record\n")
        time.sleep(1.1)
        ran = back_up(host)
        tally.holds(
            ran.returncode == 1 and ran.stderr.startswith("backup: "), f"journals that don't load: {ran.stderr}"
        )
        with open(f"{host.folder}/figures", encoding="utf-8") as text:
            tally.expect((copies(host), text.read()), before, "the copies and the figure of before")
        ran = run(tally, "backup", *host.files(f"{host.folder}/none"), "--to", f"{host.folder}/copies", *host.program)
        tally.holds(ran.returncode == 1 and "is its disk mounted?" in ran.stderr, f"no journals: {ran.stderr}")


def keeps_the_newest_copies(tally: Tally) -> None:
    """So many copies are kept, the newest ones; what has another name stays."""
    with new_host(tally) as host:
        tally.expect(host.start("--begin").returncode, 0, "the first start")
        olds = [f"2026-11-{day:02d}T03-00-00Z" for day in range(1, 6)]
        for name in (*olds, "by-hand"):
            os.makedirs(f"{host.folder}/copies/{name}")
            write_text(f"{host.folder}/copies/{name}", "journal.00.v2", "")
        tally.expect(back_up(host, 3).returncode, 0, "a copy")
        found = copies(host)
        tally.expect(len(found), 4, f"what is kept: {found}")
        tally.expect([name for name in found if name in (*olds, "by-hand")], [*olds[3:], "by-hand"], "of before")
        tally.expect(back_up(host, 0).returncode, 2, "to keep none")


CHECKS = [
    check_of(body) for body in (copies_journals_and_loads_them, keeps_the_copies_that_load, keeps_the_newest_copies)
]
