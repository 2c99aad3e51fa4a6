"""Accidents with the files of a gateway's partitions, and the person who puts them right."""
import contextlib
import os
import random
import resource
import shutil
import time
from collections.abc import Callable

from gateway.gateways import Gateway, Issuer
from issuer_host.facts.journals import journal_path
from trials.bridges.accidents import AUDIT, DAMAGES, MARK, SEALS, STARTS, WORK, copy_folder, grows, older, program_of

LOOK_SECONDS, SERVED_SECONDS, REFUSED_SECONDS = 0.1, 1.0, 40.0
FULL_SECONDS, FULL_BYTES = 1.5, 100
REFUSED, REPLACED = "the start was refused", "moved or replaced"


class Accidents:
    """Each is done to one partition. `faults` has what a gateway did that it must not do."""

    def __init__(self, gateway: Gateway, issuer: Issuer, shards: int, chance: random.Random) -> None:
        self.gateway, self.issuer, self.shards, self.chance = gateway, issuer, shards, chance
        self.faults: list[str] = []

    @property
    def kinds(self) -> "dict[str, Callable[[], None]]":
        return {
            "unsealed": self.restore_unsealed,
            "beside": self.damage_beside,
            "pulled": self.pull_disk,
            "full disk": self.fill_disk,
        }

    def folder(self) -> str:
        return f"{self.issuer.folder}/{self.chance.randrange(self.issuer.partitions)}"

    def restore_unsealed(self) -> None:
        """An older journal is put in place without its seals: no host may start over it."""
        path = journal_path(f"{self.folder()}/journal", self.chance.randrange(self.shards))
        self.gateway.end()
        kept = content([path, path + SEALS])
        is_older = older(path, self.chance)
        with contextlib.suppress(FileNotFoundError):
            os.remove(path + SEALS)
        is_refused = self.is_refused()
        if is_older and not is_refused:
            self.faults.append(f"a host went on over {path}, which was restored without seals")
        self.put_back(kept)

    def damage_beside(self) -> None:
        """A file beside the journals is damaged. If a host is refused, or orders are, it is put back."""
        journal = f"{self.folder()}/journal"
        seals = journal_path(journal, self.chance.randrange(self.shards)) + SEALS
        self.gateway.end()
        path = self.chance.choice([it for it in (journal + MARK, journal + WORK, seals) if os.path.exists(it)])
        kept = content([path])
        self.chance.choice(list(DAMAGES.values()))(path)
        if self.is_refused() or path.endswith(WORK):
            self.put_back(kept)

    def pull_disk(self) -> None:
        """A partition's disk goes away over an older copy of its files, with the seals and the mark of then.

        The copy was made while the gateway was ended, or while it ran. No gateway may go on over it, nor if a person
        starts it again without a look.
        """
        folder, is_running = self.folder(), self.chance.random() < 0.5
        if not is_running:
            self.gateway.end()
        copy_folder(folder, f"{folder}.older")
        if not is_running:
            self.gateway.start()
        if not grows(folder, f"{folder}.older"):
            self.faults.append(f"nothing was recorded in {folder} before its disk went away")
        before = self.gateway.said.count(REPLACED)
        size = os.path.getsize(f"{folder}.older/journal{AUDIT}")
        os.rename(folder, f"{folder}.away")
        os.rename(f"{folder}.older", folder)
        if not self.waits_for(lambda: self.gateway.said.count(REPLACED) > before):
            self.faults.append(f"a host went on though the files of {folder} were others")
        for start in range(STARTS):
            self.gateway.end()
            if not self.is_refused():
                self.faults.append(f"start {start} went on over the older copy of {folder}")
        self.gateway.end()
        add_log(f"{folder}/journal{AUDIT}", f"{folder}.away/journal{AUDIT}", size)
        shutil.rmtree(folder)
        os.rename(f"{folder}.away", folder)
        self.gateway.start()

    def fill_disk(self) -> None:
        """No journal of a host grows for a while."""
        hosts = self.gateway.hosts()
        for host in hosts:
            limit(host, FULL_BYTES)
        time.sleep(FULL_SECONDS)
        for host in hosts:
            limit(host, resource.RLIM_INFINITY)

    def is_refused(self) -> bool:
        """Starts the gateway. Returns whether a host was refused, once one was or all serve."""
        before = self.gateway.said.count(REFUSED)
        with contextlib.suppress(RuntimeError):
            self.gateway.start()
        served = 0.0
        until = time.monotonic() + REFUSED_SECONDS
        while time.monotonic() < until and served < SERVED_SECONDS:
            if self.gateway.said.count(REFUSED) > before:
                return True
            programs = [program_of(host) for host in self.gateway.hosts()] if self.is_running() else []
            is_served = len(programs) == self.issuer.partitions and self.issuer.program in programs
            served = served + LOOK_SECONDS if is_served and len(set(programs)) == 1 else 0.0
            time.sleep(LOOK_SECONDS)
        return False

    def is_running(self) -> bool:
        return self.gateway.process is not None and self.gateway.process.poll() is None

    def waits_for(self, holds: Callable[[], bool]) -> bool:
        until = time.monotonic() + REFUSED_SECONDS
        while not holds() and time.monotonic() < until:
            time.sleep(LOOK_SECONDS)
        return holds()

    def put_back(self, kept: "dict[str, bytes]") -> None:
        """The person puts the right files back, and starts the gateway."""
        self.gateway.end()
        for path, data in kept.items():
            with contextlib.suppress(FileNotFoundError):
                os.remove(path)
            with open(os.open(path, os.O_WRONLY | os.O_CREAT | os.O_EXCL, 0o600), "wb") as file:
                file.write(data)
        self.gateway.start()


def content(paths: "list[str]") -> "dict[str, bytes]":
    """Returns the bytes of those files that are there."""
    found = {}
    for path in paths:
        with contextlib.suppress(FileNotFoundError), open(path, "rb") as file:
            found[path] = file.read()
    return found


def add_log(log: str, to: str, first: int) -> None:
    """Appends what was written to the log that lay over another one, from an offset on."""
    with open(log, "rb") as file, open(to, "ab") as other:
        file.seek(first)
        other.write(file.read())


def limit(process: int, size: int) -> None:
    """Lets no file of a process grow past a size."""
    with contextlib.suppress(ProcessLookupError):
        hard = resource.prlimit(process, resource.RLIMIT_FSIZE)[1]
        resource.prlimit(process, resource.RLIMIT_FSIZE, (size if size != resource.RLIM_INFINITY else hard, hard))
