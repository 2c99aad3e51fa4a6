"""Kills the program before each of its calls, as a power failure does: what wasn't synced is lost, in whole or in part.

What is left of the journals has to load, with the record of each answer that was written, and with nothing but a prefix
of the records that the journals had.
"""
import errno
import random
from collections.abc import Iterator, Sequence
from typing import NamedTuple

from issuer_host.facts.journals import journal_path, old_journal_path

from program.durability import scenes
from program.durability.disk import Disk, Image, read_journals, records_of
from program.durability.ordering import HAS_RECORD, UNSYNCED, before_lines, undisturbed
from program.durability.scenes import Scene
from program.durability.tally import Check, Tally, check_of, new_folder
from program.durability.watching import JOURNAL, SHORT, Fault, Run

SEED = 67
BELOW_THE_WINDOW = "refused 10 "


class Depth(NamedTuple):
    """How much a check does: lines, at every how many calls a run is killed, and how many images are loaded then."""

    lines: int
    every: int
    images: int


FEW = Depth(lines=9, every=6, images=1)
ALL = Depth(lines=75, every=1, images=3)


def depth_of(tally: Tally) -> Depth:
    return FEW if tally.is_short else ALL


class Kills:
    """The kills of a check: it counts them, and loads what each left."""

    def __init__(self, tally: Tally, depth: Depth) -> None:
        self.tally = tally
        self.depth = depth
        self.chance = random.Random(SEED)
        self.kills = self.loads = 0

    def at_each_call(self, scene: Scene, journals: Image, disk: Disk, faults: Sequence[Fault] = ()) -> None:
        """Kills a scene's run before each of its calls, over these journals and this disk, and after its last one."""
        with new_folder() as folder:
            scene.prepare(folder, journals)
            calls = len(self.tally.watch.run(folder, scene.words, scene.groups, faults).calls)
        first = 1 + self.chance.randrange(self.depth.every)
        for kill_at in range(first, calls + 2, self.depth.every):
            self.once(scene, journals, disk.copy(), kill_at, faults)

    def once(self, scene: Scene, journals: Image, disk: Disk, kill_at: int, faults: Sequence[Fault]) -> None:
        """Kills one run, and loads what may be left."""
        with new_folder() as folder:
            scene.prepare(folder, journals)
            run = self.tally.watch.run(folder, scene.words, scene.groups, faults, kill_at)
            held = read_journals(folder)
        disk.take_all(run.calls)
        what = f"{scene.name}, killed before call {kill_at}"
        self.tally.expect(disk.held(), held, f"{what}: the journals by the calls that were seen")
        self.kills += 1
        for image in disk.images(self.chance, self.depth.images):
            self.loads += 1
            loads(self.tally, what, scene, run, disk, image)

    def note(self) -> None:
        self.tally.note(f"{self.kills} kills")
        self.tally.note(f"{self.loads} loads of what was left")


def loads(tally: Tally, what: str, scene: Scene, run: Run, disk: Disk, image: Image) -> None:
    """Loads what a power failure left of a disk, and checks it against what was written and answered."""
    answered = [(line, answer) for line, answer in zip(scene.lines, run.answers) if answer.split(" ")[0] in HAS_RECORD]
    asked = [(line, answer) for line, answer in answered if line.startswith("A ")]
    with new_folder() as folder:
        scene.prepare(folder, image)
        again = tally.watch.run_alone(folder, scenes.serve(1), scenes.groups_of([line for line, _ in asked]))
        after = read_journals(folder)
    left = {name: len(content) for name, content in sorted(image.items())}
    tally.expect(again.status, 0, f"{what}: the status of a start over what is left, {left}, {again.written[-40:]!r}")
    for (line, first), answer in zip(asked, again.answers):
        is_same = answer == first.replace("fresh", "kept") or answer.startswith(BELOW_THE_WINDOW)
        tally.holds(is_same, f"{what}: {line[:60]!r} was answered {first!r}, and is answered {answer!r} again")
    records = [records_of(after, journal_path("journal", shard)) for shard in range(scene.shards)]
    for shard, own in enumerate(records):
        has_what_was_written(tally, f"{what}: shard {shard}", own, disk, shard)
    for line, answer in answered:
        shard, place = map(int, answer.split(" ")[1:3])
        is_kept = place < len(records[shard]) and scenes.fits(line, records[shard][place].decode("ascii"))
        tally.holds(is_kept, f"{what}: the record of {answer[:40]!r} is lost, or another's; {left} bytes are left")
    if scene.words[0] == "standby" and run.status == 0:
        numbers = [int(answer.split(" ")[1]) for answer in run.answers]
        tally.expect([len(own) for own in records], numbers, f"{what}: the records that a standby reported")


def has_what_was_written(tally: Tally, what: str, own: list[bytes], disk: Disk, shard: int) -> None:
    """Checks that a shard's records are a prefix of some that its journal had, and have all of its old journal's."""
    old = records_of_old(disk, shard)
    written = [*disk.written(journal_path("journal", shard)), old]
    is_written = any(own == records[: len(own)] for records in written)
    tally.holds(is_written, f"{what} loads {len(own)} records that weren't written so")
    tally.holds(len(own) >= len(old), f"{what} has {len(own)} of {len(old)} records of its old journal")


def records_of_old(disk: Disk, shard: int) -> list[bytes]:
    return disk.held().get(old_journal_path("journal", shard), b"").split(b"\n")[:-1]


def no_answer_is_lost_by_one_caller(tally: Tally) -> None:
    """One caller is killed before each call: no record of an answer is lost, over new journals and over old ones."""
    kills = Kills(tally, depth_of(tally))
    lines = scenes.mixed_lines(kills.depth.lines)
    for scene in (
        scenes.served("one caller, new journals", 1, {}, lines),
        scenes.served("one caller", 1, scenes.journals_of(2, 5), lines),
        scenes.served("one caller, old journals", 1, scenes.old_journals_of(2, (4, 7)), lines),
    ):
        kills.at_each_call(scene, scene.journals, Disk(scene.journals))
    kills.note()


def no_answer_is_lost_by_four_callers(tally: Tally) -> None:
    """Four callers are killed before each call: no record of an answer is lost."""
    kills = Kills(tally, depth_of(tally))
    lines = scenes.mixed_lines(kills.depth.lines)
    for scene in (
        scenes.served("four callers, new journals", 4, {}, lines),
        scenes.served("four callers", 4, scenes.journals_of(5, 3), lines, shards=5),
    ):
        kills.at_each_call(scene, scene.journals, Disk(scene.journals))
    kills.note()


def a_standby_goes_on(tally: Tally) -> None:
    """A standby is killed before each call: it keeps a prefix of its feed, and all that it reported."""
    kills = Kills(tally, depth_of(tally))
    empty: Image = {}
    for journals in (empty, scenes.journals_of(2, 3)):
        scene = scenes.standby(kills.depth.lines, journals)
        kills.at_each_call(scene, journals, Disk(journals))
    kills.note()


def a_migration_goes_on(tally: Tally) -> None:
    """A start that copies old journals is killed before each call: no record of these is lost."""
    kills = Kills(tally, depth_of(tally))
    counts: list[tuple[int, ...]] = [(2_400, 2)] if tally.is_short else [(5_200, 2, 9), (2_400, 2_400)]
    for each in counts:
        scene = scenes.migration(each)
        kills.at_each_call(scene, scene.journals, Disk(scene.journals))
        gone_on_with(kills, scene)
    kills.note()


def gone_on_with(kills: Kills, scene: Scene) -> None:
    """Kills a start that goes on with a copy which another one began: the sync of its first step failed."""
    number = sync_of_the_first_step(undisturbed(kills.tally, scene))
    with new_folder() as folder:
        scene.prepare(folder)
        run = kills.tally.watch.run(folder, scene.words, faults=[Fault("fsync", JOURNAL, first=number)])
        kills.tally.expect(run.status, 5, f"{scene.name}: the status of a start whose sync fails")
        disk = Disk(scene.journals)
        disk.take_all(run.calls)
        journals = read_journals(folder)
    begun = len(journals[journal_path("journal", 0)])
    kills.tally.holds(begun > UNSYNCED, f"{scene.name}: a start whose sync fails has copied {begun} bytes alone")
    kills.at_each_call(scene._replace(name=f"{scene.name}, gone on with"), journals, disk)


def sync_of_the_first_step(run: Run) -> int:
    """The number of the sync of a journal behind the first whole step of a migration."""
    count = 1
    for call in run.calls:
        if call.name == "pwrite" and len(call.data) == UNSYNCED:
            break
        count += call.name == "fsync" and call.file_class == JOURNAL
    return count


def what_a_failed_sync_left_is_never_answered_for(tally: Tally) -> None:
    """After a run whose last sync fails, one is killed before each call: what that one answers for stays."""
    kills = Kills(tally, depth_of(tally))
    lines = scenes.mixed_lines(kills.depth.lines)
    journals = scenes.journals_of(2, 5)
    scene = scenes.served("after a failed sync", 1, journals, lines)
    for line in (1, 3, len(lines) // 2):
        for journals_in_doubt, disk in in_doubt(tally, scene, line):
            kills.at_each_call(scene, journals_in_doubt, disk)
    kills.note()


def no_answer_is_lost_after_faults(tally: Tally) -> None:
    """A run in which many syncs or writes fail is killed before each call: no record of an answer is lost."""
    kills = Kills(tally, depth_of(tally))
    lines = scenes.mixed_lines(kills.depth.lines)
    for name, forgets in (("syncs", True), ("syncs", False), ("writes", False)):
        scene = scenes.served(f"one caller, whose {name} fail", 1, scenes.journals_of(2, 5), lines)
        faults = faults_of_lines(undisturbed(tally, scene), name)
        kills.at_each_call(scene, scene.journals, Disk(scene.journals, forgets), faults)
    kills.note()


def faults_of_lines(run: Run, name: str) -> list[Fault]:
    """Faults of many syncs, or of many writes to journals, from the first line of a run on."""
    if name == "syncs":
        first = before_lines(run, "fsync", JOURNAL) + 1
        return [Fault("fsync", JOURNAL, first=first, step=3, times=0)]
    torn = Fault("pwrite", JOURNAL, before_lines(run, "pwrite", JOURNAL) + 1, step=4, times=0, what=SHORT)
    return [torn, torn._replace(first=torn.first + 1, what=errno.ENOSPC)]


def in_doubt(tally: Tally, scene: Scene, line: int) -> Iterator[tuple[Image, Disk]]:
    """The journals after a run that ended when the sync for this line failed, with both disks that may be."""
    begun = scene._replace(groups=scenes.groups_of(scene.lines[:line]))
    with new_folder() as folder:
        begun.prepare(folder)
        run = tally.watch.run(folder, begun.words, begun.groups)
        syncs = sum(call.name == "fsync" and call.file_class == JOURNAL for call in run.calls)
    with new_folder() as folder:
        begun.prepare(folder)
        run = tally.watch.run(folder, begun.words, begun.groups, [Fault("fsync", JOURNAL, first=syncs)])
        tally.expect(run.answers[-1:], ["refused 15"], f"{scene.name}: the answer whose sync fails")
        journals = read_journals(folder)
    for forgets in (True, False):
        disk = Disk(scene.journals, forgets)
        disk.take_all(run.calls)
        yield journals, disk


CHECKS: tuple[Check, ...] = tuple(
    map(
        check_of,
        (
            no_answer_is_lost_by_one_caller,
            no_answer_is_lost_by_four_callers,
            a_standby_goes_on,
            a_migration_goes_on,
            what_a_failed_sync_left_is_never_answered_for,
            no_answer_is_lost_after_faults,
        ),
    )
)
