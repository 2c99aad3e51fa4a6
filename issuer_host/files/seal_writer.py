"""Seals the records of a partition's journals while its host writes them."""
import contextlib
import time
from collections.abc import Callable, Iterator
from typing import NamedTuple

from issuer_host.facts.answers import RECORDED, words_of
from issuer_host.facts.limits import MAX_SHARDS
from issuer_host.facts.refusal import Refusal
from issuer_host.facts.troubles import Level, Troubles, say
from issuer_host.files.durable_lines import FollowedJournal
from issuer_host.files.open_journals import Look, open_journals
from issuer_host.files.run_mark import last_run_of, lock_mark
from issuer_host.files.seals import Left, Seals, seals_of

# So many pieces of a journal are sealed at a time, and so many of all journals are looked through for the records that
# are sealed next, so that the bridge's loop goes on.
PIECES = 16
LOOKED_PIECES = 256
# So many are looked through where others wait for the same step of the loop.
LOOKED_IN_A_STEP = 16
# A disk that took no seal is tried again after so long.
AGAIN_SECONDS = 5.0
UNSEALED = "no seal is written"


class Pieces(NamedTuple):
    """How many pieces of a journal were looked through for the next record, and how many were sealed."""

    looked: int
    sealed: int


class SealWriter:
    """The journals that one run of a host writes. A fault ends nothing but the sealing.

    A disk that takes no seal is tried again: once there is room, all that is missing is sealed. A journal that isn't
    what its seals say is sealed no more, and the next start refuses it.

    It is made before the run is started. So it knows at the end whether a run has begun: a start that is refused names
    none in the mark.
    """

    def __init__(self, name: str, by: str = "bridge", clock: Callable[[], float] = time.monotonic) -> None:
        self.name = name
        # Who tells of a fault.
        self.by = by
        self.journals: dict[int, tuple[FollowedJournal, Seals]] = {}
        self.durable: dict[int, int] = {}
        self.is_over = False
        self.clock, self.not_before = clock, 0.0
        self.troubles = Troubles(by, clock)
        self.files = open_journals(name)
        # The last run that began before this one.
        self.before = last_run_of(name)

    def answer(self, text: str) -> None:
        """Takes an answer: the record that it names is durable."""
        words = words_of(text)
        if words[0] in RECORDED and len(words) > 2:
            self.are_durable(int(words[1]), int(words[2]) + 1)

    def are_durable(self, shard: int, count: int) -> None:
        """So many records of a shard are durable."""
        self.durable[shard] = max(self.durable.get(shard, 0), count)

    def look(self) -> None:
        """Seals what is durable. Long journals that this run hasn't sealed yet take several looks."""
        if not self.may_seal:
            return
        with self.bearing_faults():
            left = LOOKED_PIECES
            for shard, count in self.durable.items():
                left -= self.seal(shard, count, left, PIECES).looked

    def look_at(self, shard: int) -> bool:
        """Seals a piece of a journal: a step that takes a moment. Returns whether another one would seal more."""
        if not self.may_seal:
            return False
        with self.bearing_faults():
            done = self.seal(shard, self.durable[shard], LOOKED_IN_A_STEP, 1)
            followed, _ = self.journals[shard]
            return any(done) and followed.index < self.durable[shard]
        return False

    @property
    def may_seal(self) -> bool:
        return not self.is_over and self.clock() >= self.not_before

    @contextlib.contextmanager
    def bearing_faults(self) -> Iterator[None]:
        """Seals as far as the disk and the journals let it. A fault is told, and ends nothing else."""
        try:
            yield
        except OSError as fault:
            self.troubles.begins(UNSEALED, f"{fault.strerror}: make room, or see to the disk. It is tried again")
            self.not_before = self.clock() + AGAIN_SECONDS
            self.forget()
        except Refusal as fault:
            say(self.by, Level.ERROR, f"the journals aren't sealed any more until the next start: {fault}")
            self.close()
        else:
            self.troubles.ends(UNSEALED, "seals are written again")

    def seal(self, shard: int, durable: int, most: int, pieces: int) -> "Pieces":
        """Seals what is durable of a shard. So many pieces are looked through at most, and so many sealed."""
        if shard not in self.journals and shard < MAX_SHARDS:
            followed = FollowedJournal(shard, self.name, 0)
            self.journals[shard] = followed, Seals(followed.path)
        followed, seals = self.journals[shard]
        with seals.locked():
            if followed.index != seals.count:
                # (another process seals them too, or a run before this one did)
                followed.go_to(seals.count)
            looked = followed.find(most)
            sealed = 0
            while followed.at is not None and sealed < pieces:
                lines = followed.durable_lines(durable)
                if not lines:
                    break
                seals.append(seals_of(seals.last(), lines))
                for line in lines:
                    followed.wrote(line)
                sealed += 1
        return Pieces(looked, sealed)

    def sealed(self) -> dict[int, Left]:
        """Returns the bytes and seals that each journal has at least: those of the records that were sealed."""
        return {
            shard: Left(followed.at, seals.count, True)
            for shard, (followed, seals) in self.journals.items()
            if followed.at is not None and followed.index == seals.count
        }

    def close(self) -> None:
        self.is_over = True
        self.forget()

    def forget(self) -> None:
        """Closes journals and seals. What they have is read anew before more is sealed."""
        for followed, seals in self.journals.values():
            followed.close()
            seals.__exit__()
        self.journals.clear()

    def end(self) -> None:
        """The host has ended: what is appended from now on no run wrote. If another run has begun, that one says so.

        If none has begun the start was refused, and the mark stays as it is: those journals may not be the run's.
        """
        sealed = self.sealed()
        self.close()
        if self.files is not None and self.files.look() is not Look.SAME:
            # (a disk is gone: what there is beneath it isn't the run's)
            return
        try:
            mark = lock_mark(self.name, creates=False)
        except OSError as fault:
            say(self.by, Level.WARNING, f"the end of the run isn't marked: {fault.strerror}")
            return
        if mark is None:
            return
        try:
            if mark.run() != self.before:
                mark.has_ended(sealed)
        except OSError as fault:
            say(self.by, Level.WARNING, f"the end of the run isn't marked: {fault.strerror}")
        finally:
            # (while it is locked no other run begins)
            mark.close()
