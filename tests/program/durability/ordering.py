"""In which order the program makes its calls: what has to be durable before an answer, a line or the end of a run."""
import fcntl
import os
from collections.abc import Iterator, Sequence

from issuer_host.facts.journals import MAX_RECORD_LINE, journal_path, old_journal_path

from program.durability import scenes
from program.durability.disk import O_CREAT, SYNCS, Disk, read_journals, records_of
from program.durability.scenes import Scene
from program.durability.tally import Check, Tally, check_of, new_folder
from program.durability.watching import (
    FOLDER,
    INPUT,
    JOURNAL,
    OUTPUT,
    NEVER_MADE,
    Call,
    Fault,
    Run,
)

# How many bytes a migration appends before it syncs, and how many the first sync of a run rewrites.
UNSYNCED = 65_536
ADDS = ("fresh", "queued", "set")
HAS_RECORD = (*ADDS, "kept")


def scenes_of(tally: Tally) -> list[Scene]:
    """The runs whose calls are looked at: each command that opens journals, over new ones and over others."""
    count = 12 if tally.is_short else 60
    lines = scenes.mixed_lines(count)
    found = [
        scenes.served("serve, one caller, new journals", 1, {}, lines),
        scenes.served("serve, one caller", 1, scenes.journals_of(2, 5), lines),
        scenes.served("serve, four callers, new journals", 4, {}, lines),
        scenes.served("serve, four callers, five shards", 4, scenes.journals_of(5, 4), lines, shards=5),
        scenes.standby(count, {}),
        scenes.standby(count, scenes.journals_of(2, 5)),
        scenes.migration((5_000, 3)),
        scenes.migration_gone_on_with((5_000, 300), 70_000),
        Scene("show", 3, scenes.show(), (), scenes.journals_of(3, 3_000), {}),
    ]
    export = ("export", "--config", scenes.CONFIG, "--journal", "journal")
    found.append(Scene("export", 2, export, (), scenes.journals_of(2, 9), {}))
    return found


def runs_of(tally: Tally) -> Iterator[tuple[Scene, Run, Disk]]:
    """Each scene's run, with the disk as it was before."""
    for scene in scenes_of(tally):
        yield from run_of(tally, scene, ())


def runs_whose_syncs_fail(tally: Tally) -> Iterator[tuple[Scene, Run, Disk]]:
    """The run of each scene that answers lines, where every third sync fails from the first line on."""
    for scene in scenes_of(tally):
        if scene.groups:
            first = before_lines(undisturbed(tally, scene), "fsync", JOURNAL) + 1
            yield from run_of(tally, scene, [Fault("fsync", JOURNAL, first=first, step=3, times=0)])


def run_of(tally: Tally, scene: Scene, faults: Sequence[Fault]) -> Iterator[tuple[Scene, Run, Disk]]:
    """A scene's run, with the disk as it was before. At the end the journals are compared."""
    with new_folder() as folder:
        scene.prepare(folder)
        disk = Disk.of_folder(folder)
        run = tally.watch.run(folder, scene.words, scene.groups, faults)
        tally.expect(run.status, 0, f"{scene.name}: its status")
        held = read_journals(folder)
    yield scene, run, disk
    tally.expect(disk.held(), held, f"{scene.name}: the journals by the calls that were seen")


def undisturbed(tally: Tally, scene: Scene) -> Run:
    """A scene's run without a fault."""
    with new_folder() as folder:
        scene.prepare(folder)
        return tally.watch.run(folder, scene.words, scene.groups)


def before_lines(run: Run, name: str, file_class: str) -> int:
    """How many calls of this name a run makes on files of this class before it opens its lines."""
    paths = [call.path for call in run.calls]
    lines = paths.index(scenes.STANDARD_INPUT) if scenes.STANDARD_INPUT in paths else len(paths)
    return sum(call.name == name and call.file_class == file_class for call in run.calls[:lines])


def every_call_is_seen(tally: Tally) -> None:
    """The program makes no call on a file that the library doesn't see: its journals are what the seen calls make."""
    count = 0
    for scene, run, disk in runs_of(tally):
        odd = [call for call in run.calls if call.name in NEVER_MADE]
        tally.expect(odd, [], f"{scene.name}: calls by number, and changes of a mode")
        disk.take_all(run.calls)
        count += len(run.calls)
    tally.note(f"{count} calls")


def answers_follow_syncs(tally: Tally) -> None:
    """Each record is durable before its answer is written, and so is the entry of its journal's directory."""
    count = 0
    for scene, run, disk in runs_of(tally):
        answered = 0
        for call in run.calls:
            disk.take(call)
            if call.file_class != OUTPUT or call.result <= 0 or scene.words[0] != "serve":
                continue
            answers = call.data.decode("ascii").splitlines()
            for answer, line in zip(answers, scene.lines[answered : answered + len(answers)]):
                count += is_durable(tally, scene, disk, line, answer)
            answered += len(answers)
        if scene.words[0] == "serve":
            tally.expect(answered, len(scene.lines), f"{scene.name}: answers")
    tally.note(f"{count} answers")


def is_durable(tally: Tally, scene: Scene, disk: Disk, line: str, answer: str) -> bool:
    """Checks that the record of an answer is durable, if it has one."""
    word, *places = answer.split(" ")
    if word not in HAS_RECORD:
        return False
    shard, place = int(places[0]), int(places[1])
    records = records_of(disk.without_unsynced(), journal_path("journal", shard))
    what = f"{scene.name}: {answer!r} is written for {line[:60]!r}, and its record isn't durable"
    return tally.holds(place < len(records) and scenes.fits(line, records[place].decode("ascii")), what)


def records_are_synced_one_by_one(tally: Tally) -> None:
    """A journal has one record at most that isn't durable, and in a migration 65,536 bytes; at the end it has none."""
    for scene, run, disk in runs_of(tally):
        is_migration = scene.name.startswith("migration")
        most = UNSYNCED if is_migration else MAX_RECORD_LINE
        for call in run.calls:
            disk.take(call)
            name = disk.name_of(call)
            if call.name == "pwrite" and name is not None:
                behind = len(disk.files[name].held) - len(disk.files[name].durable)
                tally.holds(
                    behind <= most, f"{scene.name}: {behind} bytes of {name} aren't durable at call {call.number}"
                )
        for name, file in disk.files.items():
            tally.holds(not file.waiting, f"{scene.name}: {name} has changes at the end that aren't durable")


def truncations_are_synced(tally: Tally) -> None:
    """After a truncation nothing is appended to the journal, and no answer written, before a sync that succeeds."""
    count = 0
    for scene, run, disk in runs_of(tally):
        count += checks_truncations(tally, scene, run, disk, is_disturbed=False)
    for scene, run, disk in runs_whose_syncs_fail(tally):
        count += checks_truncations(tally, scene, run, disk, is_disturbed=True)
    tally.holds(count > 0, "no run truncated a journal")
    tally.note(f"{count} truncations")


def checks_truncations(tally: Tally, scene: Scene, run: Run, disk: Disk, is_disturbed: bool) -> int:
    """Checks a run's truncations, and counts them. Where syncs fail, that of a truncation may: its line is refused."""
    count = 0
    cut: dict[str, int] = {}
    for call in run.calls:
        disk.take(call)
        name = disk.name_of(call) or ""
        if call.name == "ftruncate" and call.result == 0:
            cut[name] = call.first
            count += 1
        elif call.name in SYNCS and call.result == 0:
            cut.pop(name, None)
        elif call.name == "pwrite" and name in cut:
            is_in_place = call.first + len(call.data) <= cut[name]
            tally.holds(is_in_place, f"{scene.name}: {name} is appended to after a truncation that wasn't synced")
        elif call.file_class == OUTPUT and not is_disturbed:
            tally.expect(cut, {}, f"{scene.name}: truncations that aren't synced at an output")
    return count


def journals_are_opened_in_order(tally: Tally) -> None:
    """Before lines are read each journal is locked, then its end rewritten and synced, and its directory synced."""
    for scene, run, disk in runs_of(tally):
        opening = calls_of_the_opening(scene, run)
        for shard in range(scene.shards):
            opens_journal(tally, scene, opening, disk, journal_path("journal", shard))
            opens_journal(tally, scene, opening, disk, old_journal_path("journal", shard))
        syncs_folder(tally, scene, opening, disk)
        disk.take_all(run.calls)


def calls_of_the_opening(scene: Scene, run: Run) -> list[Call]:
    """The calls before the first line is read, or before the first output of a command that reads none."""
    inputs = [
        call.file for call in run.calls if call.name == "open" and call.path in (scenes.STANDARD_INPUT, scenes.FEED)
    ]
    for at, call in enumerate(run.calls):
        is_line = call.name == "read" and call.file_class == INPUT and call.file in inputs
        if call.file_class == OUTPUT or is_line and any(it.file_class == JOURNAL for it in run.calls[:at]):
            return run.calls[:at]
    return run.calls


def calls_on(calls: list[Call], name: str) -> list[Call]:
    """The calls on the journal of this name, from its opening on."""
    file = -1
    found = []
    for call in calls:
        if call.name == "open" and os.path.basename(call.path) == name and call.result >= 0:
            file = call.result
        if call.file == file and file >= 0:
            found.append(call)
        if call.name == "close" and call.file == file:
            file = -1
    return found


def opens_journal(tally: Tally, scene: Scene, opening: list[Call], disk: Disk, name: str) -> None:
    """Checks the calls on one journal while it is opened and loaded."""
    what = f"{scene.name}: {name}"
    calls = calls_on(opening, name)
    names = [call.name for call in calls]
    lock = [call.name == "flock" and call.result == 0 and bool(call.first & fcntl.LOCK_EX) for call in calls]
    tally.holds(lock[1:2] == [True], f"{what} isn't locked as soon as it is open: {names}")
    tally.holds("fsync" in names, f"{what} isn't synced while it is opened: {names}")
    if calls and calls[0].first & O_CREAT:
        tally.expect(calls[0].second, 0o600, f"{what} is created, with the mode")
    content = disk.files[name].held if name in disk.files else b""
    changes = [call for call in calls if call.name in ("pwrite", "ftruncate")]
    if not name.endswith(".v2"):
        tally.expect(changes, [], f"{what}: changes of an old journal")
        return
    if content:
        rewrites_end(tally, what, calls, bytes(content))
    last = [call for call in calls if call.name != "pread"][-1:]
    tally.expect([call.name for call in last], ["fsync"], f"{what}: the last call before the first line")


def rewrites_end(tally: Tally, what: str, calls: list[Call], content: bytes) -> None:
    """Checks that the end of a journal is rewritten as it is, and then synced, before anything is appended."""
    length = len(content)
    for call in calls:
        if call.name == "ftruncate":
            length = call.first
        if call.name == "pwrite":
            break
    begin = max(0, length - UNSYNCED)
    writes = [at for at, call in enumerate(calls) if call.name == "pwrite"]
    rewritten = writes[:1]
    place = [(calls[at].first, calls[at].data == content[begin:length]) for at in rewritten]
    tally.expect(place, [(begin, True)], f"{what}: where its end is rewritten, and whether as it was")
    after = calls[rewritten[0] + 1 : rewritten[0] + 2] if rewritten else []
    tally.expect([call.name for call in after], ["fsync"], f"{what}: the call after its end is rewritten")


def syncs_folder(tally: Tally, scene: Scene, opening: list[Call], disk: Disk) -> None:
    """Checks that the directory is synced behind each file that was created, or once where none was."""
    created = [call for call in opening if call.file_class == JOURNAL and call.name == "open" and call.first & O_CREAT]
    created = [call for call in created if call.result >= 0]
    synced = [call for call in opening if call.name == "fsync" and call.file_class == FOLDER]
    often = (1,) if not created else (len(created), len(created) + 1)
    what = f"{scene.name}: its directory is synced {len(synced)} times, where {len(created)} files are created"
    tally.holds(len(synced) in often, what)
    last = max([call.number for call in created], default=0)
    tally.holds(
        any(call.number > last for call in synced), f"{scene.name}: its directory isn't synced after the last file"
    )


CHECKS: tuple[Check, ...] = tuple(
    map(
        check_of,
        (
            every_call_is_seen,
            answers_follow_syncs,
            records_are_synced_one_by_one,
            truncations_are_synced,
            journals_are_opened_in_order,
        ),
    )
)
