"""Makes calls of the program fail, each in a run of its own: what is answered, what is recorded, and what loads."""
import errno
import fcntl
import os
import subprocess
import time
from collections.abc import Iterable, Sequence

from issuer_host.facts.journals import journal_path, old_journal_path

from program.durability import scenes
from program.durability.disk import Disk, read_journals, records_of
from program.durability.kills import loads
from program.durability.ordering import ADDS, HAS_RECORD, before_lines, undisturbed
from program.durability.scenes import Scene
from program.durability.tally import Check, Tally, check_of, new_folder
from program.durability.watching import ANY, FOLDER, INPUT, JOURNAL, OUTPUT, SHORT, Fault, Run

STORE_FAULT = "refused 15"
# The calls that a signal may interrupt.
INTERRUPTED = ("open", "flock", "ftruncate", "fsync", "read", "pread", "pwrite", "write")
# How often a call is interrupted before it works, where the program tries it until it isn't.
MANY = 5_000
NEVER_ENDS = 0
PIPE_BYTES = 4_096


def numbers_of(run: Run, name: str, file_class: str) -> int:
    """How many calls of this name a run makes on files of this class."""
    return sum(call.name == name and file_class in (call.file_class, ANY) for call in run.calls)


def with_faults(tally: Tally, scene: Scene, faults: Sequence[Fault], refused: Iterable[int] = (1,)) -> Run:
    """Runs a scene with faults that lines meet: so many are `refused 15`, all are answered, and the journals load."""
    what = f"{scene.name}, where {' and '.join(fault.told for fault in faults)}"
    with new_folder() as folder:
        scene.prepare(folder)
        run = tally.watch.run(folder, scene.words, scene.groups, faults)
        held = read_journals(folder)
    tally.expect(run.status, 0, f"{what}: its status")
    tally.expect(len(run.answers), len(scene.lines), f"{what}: its answers")
    count = sum(answer == STORE_FAULT for answer in run.answers)
    tally.holds(count in refused, f"{what}: {count} lines are refused 15, and it should be one of {list(refused)}")
    for forgets in (True, False):
        disk = Disk(scene.journals, forgets)
        disk.take_all(run.calls)
        tally.expect(disk.held(), held, f"{what}: the journals by the calls that were seen")
        loads(tally, what, scene, run, disk, disk.without_unsynced())
        has_just_what_was_answered(tally, what, scene, run, disk)
    return run


def has_just_what_was_answered(tally: Tally, what: str, scene: Scene, run: Run, disk: Disk) -> None:
    """The journals have the records of the answers, and behind them at most one that is in doubt, whole or torn."""
    added = [0] * scene.shards
    for answer in run.answers:
        word, *places = answer.split(" ")
        if word in ADDS:
            added[int(places[0])] += 1
    for shard in range(scene.shards):
        name = journal_path("journal", shard)
        begun = max(len(records_of(scene.journals, name)), records_of_old(scene, shard))
        for image in (disk.held(), disk.without_unsynced()):
            more = len(records_of(image, name)) - begun - added[shard]
            tally.holds(more in (0, 1), f"{what}: shard {shard} has {more} records that nobody was answered for")


def records_of_old(scene: Scene, shard: int) -> int:
    return scene.journals.get(old_journal_path("journal", shard), b"").count(b"\n")


def stops(tally: Tally, scene: Scene, faults: Sequence[Fault], status: int, said: Sequence[str]) -> Run:
    """Runs a scene whose start meets a fault: it ends with this status and last line, and the next start loads."""
    what = f"{scene.name}, where {' and '.join(fault.told for fault in faults)}"
    with new_folder() as folder:
        scene.prepare(folder)
        run = tally.watch.run(folder, scene.words, scene.groups, faults)
        held = read_journals(folder)
    came = (run.status, run.answers[-1:])
    tally.holds(
        run.status == status and came[1] in [[it] if it else [] for it in said], f"{what}: it ended with {came}"
    )
    disk = Disk(scene.journals)
    disk.take_all(run.calls)
    tally.expect(disk.held(), held, f"{what}: the journals by the calls that were seen")
    loads(tally, what, scene, run, disk, disk.without_unsynced())
    return run


def served(tally: Tally, callers: int = 1) -> Scene:
    """A run of a few lines over journals with records, one of them torn."""
    lines = scenes.mixed_lines(8 if tally.is_short else 24)
    return scenes.served(f"{callers} at once", callers, scenes.journals_of(2, 3), lines)


def failed_syncs_are_refused(tally: Tally) -> None:
    """Each sync in turn fails with EIO: at the start it is status 5, later its line alone is refused 15."""
    count = 0
    for scene in (served(tally, 1), served(tally, 4)):
        run = undisturbed(tally, scene)
        starting = before_lines(run, "fsync", JOURNAL)
        for number in range(1, numbers_of(run, "fsync", JOURNAL) + 1):
            fault = Fault("fsync", JOURNAL, first=number)
            if number <= starting:
                stops(tally, scene, [fault], 5, ("stop 5 0", "stop 5 1"))
            else:
                with_faults(tally, scene, [fault])
            count += 1
        stops(tally, scene, [Fault("fsync", FOLDER)], 5, ("stop 5 0",))
    tally.note(f"{count} syncs")


def failed_syncs_stop_a_standby(tally: Tally) -> None:
    """Each sync of a standby and of a migration in turn fails with EIO: it ends with 5, and the next one goes on."""
    count = 0
    for scene in (scenes.standby(4, scenes.journals_of(2, 2)), scenes.migration((2_400, 5))):
        run = undisturbed(tally, scene)
        for number in range(1, numbers_of(run, "fsync", JOURNAL) + 1):
            stops(tally, scene, [Fault("fsync", JOURNAL, first=number)], 5, ("stop 5 0", "stop 5 1"))
            count += 1
    tally.note(f"{count} syncs")


def failed_truncations_are_tried_again(tally: Tally) -> None:
    """A record is in doubt, and its truncation or the sync of that fails: a line is refused 15, a later one isn't."""
    scene = served(tally)
    run = undisturbed(tally, scene)
    starting = before_lines(run, "fsync", JOURNAL)
    cut = before_lines(run, "ftruncate", JOURNAL)
    for number in range(starting + 1, numbers_of(run, "fsync", JOURNAL) - 1):
        sync = Fault("fsync", JOURNAL, first=number)
        with_faults(tally, scene, [sync, Fault("ftruncate", JOURNAL, first=cut + 1)], (1, 2))
        with_faults(tally, scene, [sync._replace(times=2)], (1, 2))
        with_faults(tally, scene, [sync._replace(times=3)], (2, 3))
    stops(tally, scene, [Fault("ftruncate", JOURNAL)], 5, ("stop 5 1",))


def short_writes_are_gone_on_with(tally: Tally) -> None:
    """Each write and read in turn takes half of its bytes, and then all do: the answers and journals are the same."""
    count = 0
    for scene in (served(tally), scenes.standby(3, {}), scenes.migration((20, 5))):
        plain = undisturbed(tally, scene)
        for name, file_class in (("pwrite", ANY), ("write", OUTPUT), ("pread", ANY), ("read", INPUT)):
            calls = numbers_of(plain, name, file_class)
            faults = [Fault(name, file_class, first=number, what=SHORT) for number in range(1, calls + 1)]
            faults.append(Fault(name, file_class, times=NEVER_ENDS, what=SHORT))
            for fault in faults:
                comes_to_the_same(tally, scene, plain, [fault])
                count += 1
    tally.note(f"{count} runs")


def comes_to_the_same(tally: Tally, scene: Scene, plain: Run, faults: Sequence[Fault]) -> None:
    """Runs a scene with faults that nobody notices."""
    what = f"{scene.name}, where {' and '.join(fault.told for fault in faults)}"
    with new_folder() as folder:
        scene.prepare(folder)
        run = tally.watch.run(folder, scene.words, scene.groups, faults)
        held = read_journals(folder)
    tally.expect((run.status, run.written), (plain.status, plain.written), f"{what}: its status and output")
    expected = Disk(scene.journals)
    expected.take_all(plain.calls)
    tally.expect(held, expected.held(), f"{what}: its journals")


def interruptions_are_not_noticed(tally: Tally) -> None:
    """Each call is interrupted by a signal at its first try, or at many: the answers and journals are the same."""
    count = 0
    for scene in (served(tally), scenes.standby(3, {}), scenes.migration((20, 5))):
        plain = undisturbed(tally, scene)
        for name in INTERRUPTED:
            interrupted = Fault(name, ANY, step=2, times=NEVER_ENDS, what=errno.EINTR)
            comes_to_the_same(tally, scene, plain, [interrupted])
            count += 1
        for name in ("open", "flock", "ftruncate", "fsync"):
            if numbers_of(plain, name, ANY):
                comes_to_the_same(tally, scene, plain, [Fault(name, ANY, times=MANY, what=errno.EINTR)])
                count += 1
        for name in ("read", "pread", "pwrite", "write"):
            if numbers_of(plain, name, ANY):
                comes_to_the_same(tally, scene, plain, [Fault(name, ANY, times=999, what=errno.EINTR)])
                count += 1
    tally.note(f"{count} runs")


def endless_interruptions_are_faults(tally: Tally) -> None:
    """A read or write that signals interrupt without end is a fault, with the status or refusal that it has."""
    scene = served(tally)
    run = undisturbed(tally, scene)
    stops(tally, scene, [Fault("read", INPUT, times=NEVER_ENDS, what=errno.EINTR)], 3, ("stop 3",))
    stops(tally, scene, [Fault("pread", JOURNAL, times=NEVER_ENDS, what=errno.EINTR)], 5, ("stop 5 0",))
    stops(tally, scene, [Fault("pwrite", JOURNAL, times=NEVER_ENDS, what=errno.EINTR)], 5, ("stop 5 0",))
    first = before_lines(run, "pwrite", JOURNAL) + 1
    lines = sum(answer.split(" ")[0] in HAS_RECORD for answer in run.answers)
    with_faults(tally, scene, [Fault("pwrite", JOURNAL, first=first, times=NEVER_ENDS, what=errno.EINTR)], (lines,))
    stops(tally, scene, [Fault("write", OUTPUT, times=NEVER_ENDS, what=errno.EINTR)], 4, ("",))


def a_full_disk_refuses_lines(tally: Tally) -> None:
    """Each write to a journal in turn fails with ENOSPC, or takes half and then fails: one line is refused 15."""
    count = 0
    for scene in (served(tally, 1), served(tally, 4)):
        run = undisturbed(tally, scene)
        starting = before_lines(run, "pwrite", JOURNAL)
        for number in range(1, numbers_of(run, "pwrite", JOURNAL) + 1):
            full = Fault("pwrite", JOURNAL, first=number, what=errno.ENOSPC)
            half = Fault("pwrite", JOURNAL, first=number, what=SHORT)
            for faults in ([full], [half, full._replace(first=number + 1)]):
                count += 1
                if number <= starting:
                    stops(tally, scene, faults, 5, ("stop 5 0", "stop 5 1"))
                else:
                    with_faults(tally, scene, faults)
    tally.note(f"{count} runs")


def failed_reads_are_told(tally: Tally) -> None:
    """Each read of an input in turn fails with EIO, and each of a journal: status 3 or 5, never an end of the input."""
    scene = served(tally)
    run = undisturbed(tally, scene)
    reads = [call for call in run.calls if call.name == "read"]
    for number in range(1, len(reads) + 1):
        with new_folder() as folder:
            scene.prepare(folder)
            ended = tally.watch.run(folder, scene.words, scene.groups, [Fault("read", INPUT, first=number)])
        what = f"{scene.name}, where read {number} fails"
        tally.expect((ended.status, ended.answers[-1:]), (3, ["stop 3"]), f"{what}: its status and last line")
    for number in range(1, numbers_of(run, "pread", JOURNAL) + 1):
        stops(tally, scene, [Fault("pread", JOURNAL, first=number)], 5, ("stop 5 0", "stop 5 1"))
    for number in range(1, 5):
        stops(
            tally, scene, [Fault("flock", JOURNAL, first=number, what=errno.EWOULDBLOCK)], 5, ("stop 5 0", "stop 5 1")
        )
        stops(tally, scene, [Fault("open", JOURNAL, first=number, what=errno.EMFILE)], 5, ("stop 5 0", "stop 5 1"))


def a_full_pipe_is_waited_for(tally: Tally) -> None:
    """An output that can take nothing now is waited for, on a pipe that doesn't block too: each answer comes, once."""
    scene = served(tally)
    plain = undisturbed(tally, scene)
    for fault in (Fault("write", OUTPUT, times=40, what=errno.EAGAIN), Fault("write", OUTPUT, 1, 2, 0, errno.EAGAIN)):
        comes_to_the_same(tally, scene, plain, [fault])
    for callers in (1, 4):
        written, status = through_slow_pipe(tally, callers)
        what = f"{callers} at once, into a pipe of {PIPE_BYTES} bytes that doesn't block"
        tally.expect(status, 0, f"{what}: its status")
        tally.expect(len(written.splitlines()), 1_500, f"{what}: its answers")
        tally.holds(all(line.startswith(b"set ") for line in written.splitlines()), f"{what}: an answer is torn")


def through_slow_pipe(tally: Tally, callers: int) -> tuple[bytes, int]:
    """What a run of 1,500 lines writes into a small pipe that doesn't block, and that is read late and slowly."""
    scene = Scene(
        "", 2, scenes.serve(callers), (), {}, {"lines": "".join(f"{scenes.status_line(i)}\n" for i in range(1_500))}
    )
    words = [word if word != scenes.STANDARD_INPUT else "lines" for word in scene.words]
    with new_folder() as folder:
        scene.prepare(folder)
        come, to = os.pipe2(os.O_CLOEXEC)
        fcntl.fcntl(to, fcntl.F_SETPIPE_SZ, PIPE_BYTES)
        os.set_blocking(to, False)
        process = subprocess.Popen([tally.watch.program, *words], cwd=folder, stdin=subprocess.DEVNULL, stdout=to)
        os.close(to)
        time.sleep(0.2)
        written = b""
        while piece := os.read(come, 1_000):
            written += piece
            time.sleep(0.0005)
        os.close(come)
        return written, process.wait()


def a_reader_that_goes_away_ends_a_run(tally: Tally) -> None:
    """The reader of the answers goes away in mid-run: status 4, and each answer that it had is recorded."""
    for callers in (1, 4):
        scene = scenes.served(f"{callers} at once", callers, {}, scenes.mixed_lines(30))
        for number in (1, 3, 7):
            what = f"{scene.name}, whose reader goes away before write {number}"
            with new_folder() as folder:
                scene.prepare(folder)
                run = tally.watch.run(
                    folder, scene.words, scene.groups, [Fault("write", OUTPUT, number, 1, 0, errno.EPIPE)]
                )
                held = read_journals(folder)
            tally.expect(run.status, 4, f"{what}: its status")
            tally.expect(len(run.answers), scenes.GROUP * (number - 1), f"{what}: its answers")
            disk = Disk(scene.journals)
            disk.take_all(run.calls)
            loads(tally, what, scene, run, disk, disk.without_unsynced())
            tally.expect(disk.without_unsynced(), held, f"{what}: what is durable")


def threads_that_cannot_be_made_are_done_without(tally: Tally) -> None:
    """Each thread in turn can't be made, and then none: four callers answer and load all the same."""
    count = 0
    journals = scenes.journals_of(5, 4)
    lines = [scenes.status_line(number) for number in range(40)]
    scene = scenes.served("four callers", 4, journals, lines, shards=5)
    threads = numbers_of(undisturbed(tally, scene), "thread", ANY)
    tally.holds(threads > 3, f"{scene.name}: {threads} threads were made, so nothing was tried")
    none = Fault("thread", ANY, times=NEVER_ENDS, what=errno.EAGAIN)
    numbers = (1, threads) if tally.is_short else range(1, threads + 1)
    for fault in [Fault("thread", ANY, first=number, what=errno.EAGAIN) for number in numbers] + [none]:
        run = with_faults(tally, scene, [fault], (0,))
        answered = [answer for answer in run.answers if answer.startswith("set ")]
        tally.expect(
            len(set(answered)), len(lines), f"{scene.name}, where {fault.told}: its answers, each with its place"
        )
        made = [call for call in run.calls if call.name == "thread" and call.result == 0]
        if fault == none:
            tally.expect(made, [], f"{scene.name}: threads that were made")
            tally.expect(len({call.thread for call in run.calls}), 1, f"{scene.name}: threads that made a call")
        count += 1
    tally.note(f"{count} runs")


CHECKS: tuple[Check, ...] = tuple(
    map(
        check_of,
        (
            failed_syncs_are_refused,
            failed_syncs_stop_a_standby,
            failed_truncations_are_tried_again,
            short_writes_are_gone_on_with,
            interruptions_are_not_noticed,
            endless_interruptions_are_faults,
            a_full_disk_refuses_lines,
            failed_reads_are_told,
            a_full_pipe_is_waited_for,
            a_reader_that_goes_away_ends_a_run,
            threads_that_cannot_be_made_are_done_without,
        ),
    )
)
