"""Which files a start takes for journals, which it leaves as they are, and how several threads load many of them."""
import copy
import fcntl
import os
import resource
import shutil
import stat
import subprocess
import sys
import tempfile
from collections.abc import Callable, Iterator
from contextlib import ExitStack, contextmanager
from typing import Optional

from issuer_host.facts.journals import journal_path, old_journal_path
from issuer_host.facts.paths import HOME

from program.durability import scenes
from program.durability.disk import Image, read_journals, write_journals
from program.durability.ordering import undisturbed
from program.durability.scenes import Scene
from program.durability.tally import Check, Tally, check_of, new_folder
from program.durability.watching import OTHER, Fault, Run, Watch

NOBODY = 65_534
# A stack that docs/operate/troubleshooting.md calls enough, and a hole that a start has to read through.
STACK_BYTES = 1_024 * 1_024
HOLE_BYTES = 256 * 1_024 * 1_024
# More shards than callers: threads then load two or more each, and the last one fewer.
SHARDS_AND_CALLERS = ((3, 2), (5, 2), (5, 4), (7, 3), (16, 3), (16, 5), (16, 12), (16, 15), (16, 16))


def status_of_start(tally: Tally, folder: str, before: Optional[Callable[[], None]] = None) -> tuple[int, list[str]]:
    """The status of `show` over a folder's journals, and its last line if it stopped."""
    run = tally.watch.run_alone(folder, scenes.show(), before=before)
    return run.status, run.answers[-1:] if run.status else []


def only_own_files_are_journals(tally: Tally) -> None:
    """A journal is status 5, and stays as it is, if a link names it, all may write it, or it is no regular file."""
    for name, shard in ((journal_path("journal", 1), 1), (old_journal_path("journal", 1), 1)):
        for kind, put in strange_files():
            with new_folder() as folder:
                scenes.served("", 1, scenes.journals_of(2, 3), ()).prepare(folder)
                path = os.path.join(folder, name)
                os.rename(path, f"{folder}/elsewhere")
                put(path, f"{folder}/elsewhere")
                before = state_of(folder)
                came = status_of_start(tally, folder)
                tally.expect(came, (5, [f"stop 5 {shard}"]), f"{kind} as {name}: the status and the last line")
                tally.expect(state_of(folder), before, f"{kind} as {name}: the files after the start")


def strange_files() -> Iterator[tuple[str, Callable[[str, str], None]]]:
    """What may stand at a journal's path: each is put there, and the journal itself is at the second path."""
    yield "a symbolic link", lambda path, other: os.symlink(other, path)
    yield "a symbolic link to nothing", lambda path, other: os.symlink(f"{other}-not", path)
    yield "a folder", lambda path, other: os.mkdir(path)
    yield "a pipe", lambda path, other: os.mkfifo(path)
    yield "a socket", lambda path, other: os.mknod(path, stat.S_IFSOCK | 0o600)
    yield "a file that everyone may write", lambda path, other: link_with_mode(path, other, 0o666)
    yield "a file that others may write", lambda path, other: link_with_mode(path, other, 0o602)


def link_with_mode(path: str, other: str, mode: int) -> None:
    os.rename(other, path)
    os.chmod(path, mode)


def state_of(folder: str) -> list[tuple[str, int, int, bytes]]:
    """The files of a folder: their names, modes, times of change (but the first journal's) and bytes."""
    found = []
    for entry in sorted(os.scandir(folder), key=lambda entry: entry.name):
        status = entry.stat(follow_symlinks=False)
        is_plain = entry.is_file(follow_symlinks=False)
        is_first = entry.name == journal_path("journal", 0)
        with open(entry.path if is_plain else os.devnull, "rb") as data:
            found.append((entry.name, status.st_mode, 0 if is_first else status.st_mtime_ns, data.read()))
    return found


def modes_of_owners_are_taken(tally: Tally) -> None:
    """A journal that its owner, its group or all may read is taken, and one that the start creates has mode 0600."""
    for mode in (0o600, 0o640, 0o644, 0o660):
        with new_folder() as folder:
            scenes.served("", 1, scenes.journals_of(2, 3), ()).prepare(folder)
            for shard in range(2):
                os.chmod(os.path.join(folder, journal_path("journal", shard)), mode)
            tally.expect(status_of_start(tally, folder), (0, []), f"journals of mode {mode:o}: the status")
    with new_folder() as folder:
        scenes.served("", 1, {}, ()).prepare(folder)
        os.umask(previous := os.umask(0))
        tally.expect(status_of_start(tally, folder, lambda: ignore(os.umask(0))), (0, []), "new journals: the status")
        modes = {name: os.stat(os.path.join(folder, name)).st_mode & 0o777 for name in read_journals(folder)}
        tally.expect(
            set(modes.values()), {0o600}, f"the modes of new journals, made under the mask 0 (not {previous:o})"
        )


def ignore(_: object) -> None:
    """Nothing: what a call returned isn't needed."""


def old_journals_stay_as_they_are(tally: Tally) -> None:
    """A start over old journals never writes them, also while it copies them: their bytes and times stay."""
    journals = scenes.old_journals_of(2, (30, 4))
    scene = scenes.served("old journals", 1, journals, scenes.mixed_lines(6))
    with new_folder() as folder:
        scene.prepare(folder)
        before = times_of(folder, journals)
        for words in (scene.words, scenes.show(), scenes.serve(4)):
            run = tally.watch.run_alone(folder, words, scene.groups if words != scenes.show() else ())
            tally.expect(run.status, 0, f"{words[0]} over old journals: its status")
            tally.expect(times_of(folder, journals), before, f"{words[0]}: the old journals, with their times")


def times_of(folder: str, journals: Image) -> dict[str, tuple[int, bytes]]:
    image = read_journals(folder)
    return {name: (os.stat(os.path.join(folder, name)).st_mtime_ns, image[name]) for name in journals}


def old_journals_need_not_be_writable(tally: Tally) -> None:
    """Old journals may be files that can't be written, for a user who isn't root; a journal may not."""
    old = scenes.old_journals_of(2, (30, 4))
    with as_nobody(tally.watch, old) as (watch, folder, become):
        for name in old:
            os.chmod(os.path.join(folder, name), 0o400)
        run = watch.run_alone(folder, scenes.show(), before=become)
        tally.expect(run.status, 0, "show over old journals of mode 0400: its status")
        copied = read_journals(folder)[journal_path("journal", 0)]
        tally.expect(copied, scenes.text_of(scenes.status_records(2, 0, 30)), "the copy of an old journal of mode 0400")
        if os.geteuid() == 0 and become is None:
            tally.note("left out: a user whom the modes bind, since nobody can't run the program here")
            return
        os.chmod(os.path.join(folder, journal_path("journal", 1)), 0o400)
        run = watch.run_alone(folder, scenes.show(), before=become)
        tally.expect((run.status, run.answers), (5, ["stop 5 1"]), "show over a journal of mode 0400")


@contextmanager
def as_nobody(watch: Watch, journals: Image) -> Iterator[tuple[Watch, str, Optional[Callable[[], None]]]]:
    """A folder with journals, and the program, for a user who isn't root: this one, or nobody, if it can run there."""
    with new_folder() as folder, ExitStack() as places:
        scenes.served("", 1, journals, ()).prepare(folder)
        program = program_of_nobody(watch.program, places) if os.geteuid() == 0 else ""
        if not program:
            yield watch, folder, None
            return
        own = copy.copy(watch)
        own.program = program
        for name in ("", *os.listdir(folder)):
            os.chown(os.path.join(folder, name), NOBODY, NOBODY)
        yield own, folder, become_nobody


def program_of_nobody(program: str, places: ExitStack) -> str:
    """A copy of the program that nobody can run, in one of the folders for temporary files, or "" if none has one."""
    for room in (tempfile.gettempdir(), "/tmp", "/var/tmp"):
        place = places.enter_context(tempfile.TemporaryDirectory(dir=room))
        os.chmod(place, 0o755)
        copied = os.path.join(place, os.path.basename(program))
        shutil.copy(program, copied)
        try:
            subprocess.run([copied], preexec_fn=become_nobody, cwd="/", capture_output=True, check=False)
            return copied
        except (OSError, subprocess.SubprocessError):
            continue
    return ""


def become_nobody() -> None:
    os.setresuid(NOBODY, NOBODY, NOBODY)


def an_old_journal_may_lose_what_was_copied(tally: Tally) -> None:
    """An old journal that lost its last records to a power failure, after they were copied, changes nothing."""
    journals = scenes.old_journals_of(2, (30, 4))
    scene = Scene("", 2, scenes.show(), (), journals, {})
    with new_folder() as folder:
        scene.prepare(folder)
        shown = tally.watch.run_alone(folder, scenes.show())
        for length in (0, 1, 100, 28 * 29, 28 * 30):
            write_journals(folder, {"journal.00": journals["journal.00"][:length]})
            again = tally.watch.run_alone(folder, scenes.show())
            came = (again.status, again.written)
            tally.expect(came, (0, shown.written), f"show, with {length} bytes left of an old journal that was copied")


def words_that_are_no_text_are_no_command(tally: Tally) -> None:
    """Words that aren't text are status 1, and a start that can't open its empty device is status 4: neither writes."""
    with new_folder() as folder:
        scenes.served("", 1, {}, ()).prepare(folder)
        run = tally.watch.run_alone(folder, [*scenes.show()[:-1], os.fsdecode(b"journal\xff")])
        tally.expect((run.status, run.answers), (1, ["stop 1"]), "a name that isn't text: the status and the last line")
        held = handles_of_nothing(tally)
        tally.expect(len(held), 3, "how many handles of the empty device a start opens")
        for number in held:
            run = tally.watch.run(folder, scenes.show(), faults=[Fault("open", OTHER, first=number)])
            tally.expect(
                (run.status, run.written), (4, b""), f"no handle of number {number}: the status and the output"
            )
        tally.expect(read_journals(folder), {}, "the journals after such starts")


def handles_of_nothing(tally: Tally) -> list[int]:
    """Which openings of a device at a start, counted from 1, are those of the empty device."""
    run = undisturbed(tally, scenes.served("", 1, {}, ()))
    devices = [call.path for call in run.calls if call.name == "open" and call.file_class == OTHER]
    return [number for number, path in enumerate(devices, 1) if path == os.devnull]


def a_limit_of_file_size_is_a_full_disk(tally: Tally) -> None:
    """By the launcher's run, a limit of file size isn't a signal: lines past it are refused 15, and the run goes on."""
    lines = "".join(f"{scenes.status_line(number)}\n" for number in range(60))
    scene = Scene("", 2, ("serve", "--requests", "lines", *scenes.show()[1:]), (), {}, {"lines": lines})
    run = f"""import resource, sys
sys.path.insert(0, {HOME!r})
from issuer_host.launcher.program_run import run_program
resource.setrlimit(resource.RLIMIT_FSIZE, (500, 500))
sys.exit(run_program({[tally.watch.program, *scene.words]!r}).status)"""
    with new_folder() as folder:
        scene.prepare(folder)
        limited = subprocess.run([sys.executable, "-c", run], cwd=folder, capture_output=True, check=False)
        again = tally.watch.run_alone(folder, scene.words)
    answers = limited.stdout.split(b"\n")[:-1]
    tally.expect(
        (limited.returncode, len(answers)), (0, 60), "serve under a limit of 500 bytes a file: status, answers"
    )
    tally.holds(answers[-1:] == [b"refused 15"], "serve under a limit of 500 bytes a file refuses no line")
    tally.expect((again.status, len(again.answers)), (0, 60), "serve without the limit afterwards: status, answers")


def a_lock_of_another_ends_a_start(tally: Tally) -> None:
    """A start over a journal that another program has locked, also for reading, is status 5, and changes nothing."""
    old, new = old_journal_path("journal", 1), journal_path("journal", 1)
    for name, how in ((new, fcntl.LOCK_SH), (new, fcntl.LOCK_EX), (old, fcntl.LOCK_SH), (old, fcntl.LOCK_EX)):
        what = f"{name}, locked for {'reading' if how == fcntl.LOCK_SH else 'writing'}"
        with new_folder() as folder:
            scenes.served("", 1, scenes.journals_of(2, 3), ()).prepare(folder)
            before = state_of(folder)
            with open(os.path.join(folder, name), "rb") as other:
                fcntl.flock(other, how)
                came = status_of_start(tally, folder)
                tally.expect(came, (5, ["stop 5 1"]), f"{what}: the status and the last line")
                tally.expect(state_of(folder), before, f"{what}: the files after the start")
            tally.expect(status_of_start(tally, folder), (0, []), f"{what} no more: the status")


def what_follows_the_last_newline_is_cut(tally: Tally) -> None:
    """Bytes behind a journal's last newline are truncated, whatever and however many they are; all lines stay."""
    text = scenes.text_of(scenes.status_records(1, 0, 40))
    whole = text.removesuffix(b"\n")
    last = whole.rindex(b"\n") + 1
    tails = [(text, tail) for tail in (b"s", b"v2", b"d " * 262, b"x" * 65_536, b"\xff\x00\r" * 66_000)]
    # (the last record, whose newline is a form feed)
    tails.append((text[:last], whole[last:] + b"\x0c"))
    for kept, tail in tails:
        what = f"a journal with {len(tail)} bytes behind its last newline, {tail[:9]!r} .."
        tally.expect(loaded_from(tally, kept + tail, 0), (0, kept), f"{what}: the status, and the journal")
    hole = HOLE_BYTES // (8 if tally.is_short else 1)
    what = f"a journal with a hole of {hole} bytes behind its last newline"
    tally.expect(loaded_from(tally, text, hole), (0, text), f"{what}: the status, and the journal")
    bad = (6, text + b"x" * 600 + b"\n")
    tally.expect(loaded_from(tally, bad[1], 0), bad, "a journal with a long line that is no record: the same")


def loaded_from(tally: Tally, text: bytes, hole: int) -> tuple[int, bytes]:
    """The status of a start over a journal with this text and then a hole, and the journal afterwards."""
    with new_folder() as folder:
        scenes.served("", 1, {journal_path("journal", 0): text}, (), shards=1).prepare(folder)
        path = os.path.join(folder, journal_path("journal", 0))
        os.truncate(path, len(text) + hole)
        status = status_of_start(tally, folder)[0]
        with open(path, "rb") as journal:
            return status, journal.read()


def a_stack_of_a_megabyte_is_enough(tally: Tally) -> None:
    """By a stack of 1,024 kB all commands over journals do what they do by any other: the same output and journals."""
    export = ("export", "--config", scenes.CONFIG, "--journal", "journal")
    for scene in (
        scenes.served("serve, one caller", 1, scenes.journals_of(2, 5), scenes.mixed_lines(24)),
        scenes.served("serve, four callers", 4, scenes.journals_of(5, 4), scenes.mixed_lines(24), shards=5),
        scenes.standby(20, {}),
        scenes.migration((2_400, 5)),
        Scene("export", 2, export, (), scenes.journals_of(2, 2_400), {}),
    ):
        came = []
        for limit in (None, limit_stack):
            with new_folder() as folder:
                scene.prepare(folder)
                run = tally.watch.run_alone(folder, scene.words, scene.groups, limit)
                came.append((run.status, len(run.answers), sorted(map(len, read_journals(folder).values()))))
        tally.expect(came[1], came[0], f"{scene.name}: status, answers and bytes of the journals")


def limit_stack() -> None:
    resource.setrlimit(resource.RLIMIT_STACK, (STACK_BYTES, STACK_BYTES))


def many_shards_are_loaded_by_few_callers(tally: Tally) -> None:
    """More shards than callers: each journal is loaded, a bad one is named, and the first of several."""
    count = 0
    for shards, callers in SHARDS_AND_CALLERS:
        journals = uneven_journals(shards)
        pans = (scenes.EXAMPLE_PANS + scenes.STATUS_PANS)[:shards]
        lines = [f"S {pan} 00 1" for pan in pans]
        scene = scenes.served(f"{callers} callers, {shards} shards", callers, journals, lines, shards=shards)
        run = run_of(tally, scene, journals)
        places = [f"set {shard} {places_of(shards, shard)}" for shard in range(shards)]
        tally.expect((run.status, run.answers), (0, places), f"{scene.name}: the status, and a place for each shard")
        bad = range(shards) if not tally.is_short else sorted({0, shards // 2, shards - 1})
        for shard in bad:
            for others in ((), (shards - 1,)):
                stops_at_bad(tally, scene, journals, shard, {shard, *others})
                count += 1
    tally.note(f"{count} bad journals")


def uneven_journals(shards: int) -> Image:
    """Journals of as many shards, none with as many records as the next."""
    records = [scenes.status_records(shards, shard, 400)[: places_of(shards, shard)] for shard in range(shards)]
    return {journal_path("journal", shard): scenes.text_of(own) + scenes.TORN for shard, own in enumerate(records)}


def places_of(shards: int, shard: int) -> int:
    """How many records the journal of a shard has."""
    return (shard * 97 + shards * 13) % 300


def run_of(tally: Tally, scene: Scene, journals: Image) -> Run:
    with new_folder() as folder:
        scene.prepare(folder, journals)
        return tally.watch.run_alone(folder, scene.words, scene.groups)


def stops_at_bad(tally: Tally, scene: Scene, journals: Image, first: int, bad: set[int]) -> None:
    """Checks a start over journals of which some have a last line that is no record."""
    names = [journal_path("journal", shard) for shard in range(scene.shards)]
    broken = {
        name: text + b"\n" if shard in bad else text for shard, (name, text) in enumerate(sorted(journals.items()))
    }
    line = places_of(scene.shards, first) + 2
    with new_folder() as folder:
        scene.prepare(folder, broken)
        run = tally.watch.run_alone(folder, scene.words, scene.groups)
        after = read_journals(folder)
    what = f"{scene.name}, the journals of shards {sorted(bad)} are bad"
    tally.expect((run.status, run.answers), (6, [f"stop 6 {first} {line}"]), f"{what}: the status and the last line")
    for shard, name in enumerate(names):
        whole = broken[name][: broken[name].rindex(b"\n") + 1]
        tally.holds(after[name] in (broken[name], whole), f"{what}: shard {shard} has lost whole lines")


CHECKS: tuple[Check, ...] = tuple(
    map(
        check_of,
        (
            only_own_files_are_journals,
            modes_of_owners_are_taken,
            old_journals_stay_as_they_are,
            old_journals_need_not_be_writable,
            an_old_journal_may_lose_what_was_copied,
            words_that_are_no_text_are_no_command,
            a_limit_of_file_size_is_a_full_disk,
            a_lock_of_another_ends_a_start,
            what_follows_the_last_newline_is_cut,
            a_stack_of_a_megabyte_is_enough,
            many_shards_are_loaded_by_few_callers,
        ),
    )
)
