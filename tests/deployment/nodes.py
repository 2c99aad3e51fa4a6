"""What a node begins with (deploy/node): NODE.json, positions beside journals, and journals that it truncates."""
import contextlib
import errno
import hashlib
import io
import itertools
import json
import os
import stat
import unittest.mock
from collections.abc import Callable, Iterator, Sequence
from types import SimpleNamespace
from typing import Any, NamedTuple, Optional

from checks import Tally, check_of
from deployment.running import Host, is_refused, new_host, run
from issuer_host.facts.journals import VERSION_LINE
from issuer_host.facts.refusal import Refusal
from issuer_host.facts.statuses import Status
from issuer_host.files import last_run
from issuer_host.files.placement import move_in_place, put_in_place
from issuer_host.files.seals import Seals
from issuer_host.host.feed_run import limits_over
from issuer_host.orders.intent_log import Begun, DECLINE, MOST_LINES
from issuer_host.replication import cluster_keys, node_file, positions, rule_choice
from issuer_host.replication.journal_files import JournalFiles
from issuer_host.replication.messages import Barrier, LOGS, NOTES, Record
from issuer_host.replication.notes import Notes, as_note, read_notes, work_of, write_notes
from issuer_host.replication.position_keeper import PositionKeeper
from issuer_host.replication.record_origins import FedLines, NOWHERE, Origin, RefusedRecord
from issuer_host.replication.rule_events import MOST_BEYOND
from issuer_host.replication.standby_run import StandbyRun, TransientFault
from runs import PANS, SHARDS, new_folder, write_bytes, write_text

BARRIER = Barrier(3, "c0ffee", "m1")


def node_of(host: Host, **more: Any) -> "dict[str, Any]":
    """Returns a NODE.json of one partition."""
    one = {"number": 0, "configuration": host.config, "journal": host.name}
    files = {"broker_file": f"{host.folder}/url", "cluster_key_file": f"{host.folder}/cluster-key"}
    return {"machine": "m1", **files, "partitions": [one], **more}


def written(host: Host, told: object) -> str:
    write_text(host.folder, "node.json", json.dumps(told))
    return f"{host.folder}/node.json"


def wrong_files(host: Host) -> "list[tuple[object, str]]":
    """NODE.json files that are refused, and what is said."""
    right = node_of(host)
    one = right["partitions"][0]
    return [
        ([], "is no object"),
        ({**right, "more": 1}, "no member more"),
        ({name: value for name, value in right.items() if name != "machine"}, "lacks machine"),
        ({name: value for name, value in right.items() if name != "cluster_key_file"}, "lacks cluster_key_file"),
        ({**right, "machine": "a b"}, "a machine's name"),
        ({**right, "machine": 1}, "of another kind"),
        ({**right, "figures": "9"}, "of another kind"),
        ({**right, "figures": 1 << 16}, "a port"),
        ({**right, "window": 0}, f"the window is 1 to {MOST_BEYOND}"),
        ({**right, "window": MOST_BEYOND + 1}, f"the window is 1 to {MOST_BEYOND}"),
        ({**right, "partitions": []}, "there is one at least"),
        ({**right, "partitions": [one, {**one, "journal": "other"}]}, "a number of its own"),
        ({**right, "partitions": [one, {**one, "number": 1}]}, "the same journals"),
        ({**right, "partitions": [{**one, "callers": 17}]}, "callers of partition 0"),
        ({**right, "partitions": [{"number": 0}]}, "lacks configuration"),
    ]


def refuses_a_wrong_node_file(tally: Tally) -> None:
    """A NODE.json that isn't as it has to be ends the node with 78, and says why."""
    with new_host(tally) as host:
        for told, said in wrong_files(host):
            is_refused(tally, run(tally, "node", written(host, told)), f"{told}", said)
        is_refused(tally, run(tally, "node", f"{host.folder}/none"), "no file", "can't be read")
        tally.expect(run(tally, "node").returncode, Status.USAGE, "the status without words")


def starts_with_a_key_of_its_own_alone(tally: Tally) -> None:
    """A node without the cluster's key, or with one that others may open or that is none, ends with 78."""
    right = "00" * 32
    wrong = ("", "\n", right[:-2], right[:-1], f"{right}\r\n", f"{right}\n\n", f"{right}\n{right}\n", right + " ")
    with new_host(tally) as host:
        path, key = written(host, node_of(host)), f"{host.folder}/cluster-key"
        is_refused(
            tally, run(tally, "node", path), "no key", "cluster-key can't be read", "docs/operate/three-machines.md"
        )
        for text in (*wrong, "".join(f"{number:064x}\n" for number in range(5))):
            write_text(host.folder, "cluster-key", text)
            os.chmod(key, 0o600)
            is_refused(tally, run(tally, "node", path), f"the key {text!r}", "has a line for each key")
        write_text(host.folder, "cluster-key", f"{right}\n")
        for mode in (0o644, 0o640, 0o604, 0o660):
            os.chmod(key, mode)
            is_refused(tally, run(tally, "node", path), f"a key of mode {mode:o}", "so that others could open it")
        os.remove(key)
        os.mkfifo(key, 0o600)
        is_refused(tally, run(tally, "node", path), "a pipe", "is no regular file")


def finds_the_program_that_decides(tally: Tally) -> None:
    """A node takes the program that NODE.json names, or the proved one. One that the gate built needs a named host."""
    with new_host(tally) as host:
        proved, built = f"{host.folder}/proved", f"{host.folder}/built"
        write_text(host.folder, "built", "")
        write_text(host.folder, "cluster-key", "00" * 32)
        os.chmod(f"{host.folder}/cluster-key", 0o600)
        cases: "tuple[tuple[dict[str, str], bool, str], ...]" = (
            ({}, True, proved),
            ({}, False, ""),
            ({"program": "/host"}, True, proved),
            ({"program": "/host"}, False, built),
            ({"rule": "/other"}, True, "/other"),
            ({"rule": "/other", "program": "/host"}, False, "/other"),
        )
        for more, is_proved, found in cases:
            settings = node_file.read(written(host, node_of(host, **more)))
            places = SimpleNamespace(path=proved, gate_path=built)
            with unittest.mock.patch.multiple(
                rule_choice,
                RULE=places,
                is_proved=lambda path, name: is_proved and path == proved,
                is_proved_soon=lambda name: is_proved,
            ):
                tally.expect(chosen(settings), found, f"the program of {more}, proved: {is_proved}")
                with contextlib.redirect_stderr(io.StringIO()) as said:
                    tally.expect(rule_choice.has_rule(settings), bool(found), f"whether there is one: {more}")
            warns = "isn't the proved program" in said.getvalue()
            tally.expect(warns, found not in ("", proved), f"whether the node reports it: {more}, {said.getvalue()!r}")
            tally.expect("Run ./issuer prove" in said.getvalue(), not found, f"what to run: {more}")


def chosen(settings: node_file.NodeSettings) -> str:
    try:
        return rule_choice.rule_path(settings)
    except TransientFault:
        return ""


def reads_keys(tally: Tally) -> None:
    """Keys are read as they are written, the one that signs first; a message names one by its fingerprint alone."""
    keys = (bytes(range(32)), bytes(range(100, 200)))
    with new_host(tally) as host:
        for text in ("".join(f"{key.hex()}\n" for key in keys), "\n".join(key.hex().upper() for key in keys)):
            write_text(host.folder, "cluster-key", text)
            os.chmod(f"{host.folder}/cluster-key", 0o400)
            found = cluster_keys.read(f"{host.folder}/cluster-key")
            tally.expect(found.keys, keys, f"the keys of {text!r}")
            os.chmod(f"{host.folder}/cluster-key", 0o600)
    told = hashlib.sha256(b"key of a cluster\n" + keys[0]).hexdigest()[:16]
    tally.expect(cluster_keys.fingerprint_of(keys[0]), told, "the fingerprint")


def begins_each_partition_once(tally: Tally) -> None:
    """--begin creates journals and positions, once; machines with the same journals begin with one digest."""
    with new_host(tally) as host, new_host(tally) as other:
        path = written(host, node_of(host))
        ran = run(tally, "node", "--begin", path)
        tally.expect(ran.returncode, Status.OK, f"the first begin, with {ran.stderr!r}")
        is_refused(tally, run(tally, "node", "--begin", path), "a second begin", "has begun here")
        tally.expect(positions.read(host.name).offset, positions.BEFORE, "the offset before the first message")
        empty = positions.begin(other.begun().name)
        tally.expect(empty.digest, positions.read(host.name).digest, "the digest of empty journals")
        tally.expect(host.start().returncode, Status.OK, "the status of a start over the journals")
        os.remove(positions.position_path(other.name))
        records(other, 2)
        tally.holds(positions.begin(other.name).digest != empty.digest, "journals with records have another digest")


def begins_with_no_old_journal_uncopied(tally: Tally) -> None:
    """Old journals are copied before a partition begins: a start would append their records later."""
    with new_host(tally) as host:
        lines = records(host.begun(), 2)
        for shard in range(SHARDS):
            os.remove(host.journal(shard))
            os.remove(f"{host.journal(shard)}.seals")
            write_text(host.folder, host.old_journal(shard), "".join(f"{line}\n" for line in lines * (not shard)))
        os.remove(f"{host.name}.run")
        path = written(host, node_of(host))
        is_refused(tally, run(tally, "node", "--begin", path), "a begin with old journals", "start its host once")
        tally.expect(host.start("--begin").returncode, Status.OK, "the status of a start that copies them")
        ran = run(tally, "node", "--begin", path)
        tally.expect((ran.returncode, positions.read(host.name).counts[0]), (0, 2), f"a begin, with {ran.stderr!r}")


def records(host: Host, count: int) -> "list[str]":
    """Has the program record so many statuses, and returns the lines of the first shard."""
    lines = "".join(f"S {PANS[0]} 00 {number % 10}\n" for number in range(count))
    ran = host.start(command="serve", more=("--requests", "/dev/stdin"), input=lines)
    assert ran.returncode == 0, ran.stderr
    with open(host.journal(0), encoding="ascii") as text:
        return text.read().splitlines()[1:]


def position_of(host: Host, count: int, lines: Sequence[str], offset: int = 7) -> positions.Position:
    """Returns a position at which so many records of the first shard count."""
    size = len(VERSION_LINE) + sum(len(line) + 1 for line in lines[:count])
    counts = (count, *(0 for _ in range(LOGS - 1)))
    sizes = (size, *(len(VERSION_LINE) for _ in range(NOTES - 1)), 0)
    return positions.Position(offset, "d" * positions.DIGITS, BARRIER, counts, sizes)


def refused(body: Callable[[], object]) -> str:
    """Returns why something is refused, or nothing if it isn't."""
    try:
        body()
    except Refusal as refusal:
        return str(refusal)
    return ""


def refuses_a_wrong_position(tally: Tally) -> None:
    """A position that is missing, garbled, or before the journals."""
    with new_host(tally) as host:
        lines = records(host.begun(), 3)
        tally.holds("--begin" in refused(lambda: positions.read(host.name)), "no position is refused")
        right = position_of(host, 2, lines)
        positions.write(host.name, right)
        tally.expect(positions.read(host.name), right, "a position is read as it is written")
        with open(positions.position_path(host.name), encoding="utf-8") as text:
            said = json.load(text)
        for wrong in ({**said, "offset": -2}, {**said, "counts": [1]}, {**said, "barrier": [1, "a b", "m1"]}, [], {}):
            write_text(host.folder, "journal.position", json.dumps(wrong))
            tally.holds("is no position" in refused(lambda: positions.read(host.name)), f"{wrong} is refused")
        for counts, sizes in ((right.counts, (right.sizes[0] + 1, *right.sizes[1:])), ((4,) * LOGS, (999,) * LOGS)):
            positions.write(host.name, right._replace(counts=counts, sizes=sizes))
            tally.holds("hasn't the" in refused(lambda: positions.read(host.name)), f"{sizes[0]} bytes are refused")


def flipped(data: bytes) -> Iterator[bytes]:
    """Returns data with each of its bits changed, one at a time."""
    for at in range(8 * len(data)):
        yield data[: at // 8] + bytes([data[at // 8] ^ 1 << at % 8]) + data[at // 8 + 1 :]


def refuses_a_position_that_was_changed(tally: Tally) -> None:
    """Each bit of a position that is changed is found; a position with another count is, even with a right sum."""
    with new_host(tally) as host:
        lines = records(host.begun(), 4)
        right = position_of(host, 3, lines)
        for less in (-1, 1):
            positions.write(host.name, right._replace(counts=(right.counts[0] + less, *right.counts[1:])))
            tally.holds("hasn't the" in refused(lambda: positions.read(host.name)), f"a count greater by {less}")
        positions.write(host.name, right)
        path = positions.position_path(host.name)
        with open(path, "rb") as text:
            data = text.read()
        taken = 0
        for changed in flipped(data.rstrip(b"\n")):
            write_bytes(host.folder, os.path.basename(path), changed + b"\n")
            taken += not refused(lambda: positions.read(host.name))
        tally.expect(taken, 0, f"how many of {8 * len(data) - 8} changed positions are taken")
        write_text(host.folder, os.path.basename(path), json.dumps(right._asdict()) + "\n")
        tally.expect(positions.read(host.name), right, "a position that an older release wrote, without a sum")
        old = {name: value for name, value in right._asdict().items() if name != positions.OWN}
        write_text(host.folder, os.path.basename(path), json.dumps(old) + "\n")
        for machine, own in (("", right.counts), ("m9", right.counts), (BARRIER.machine, None)):
            tally.expect(positions.read(host.name, machine).own, own, f"an older release's, of {machine or 'nobody'}")


def copies_what_counts(tally: Tally) -> None:
    """--copy takes what counts of journals at their position, and no more; journals that exist aren't written over."""
    with new_host(tally) as host, new_host(tally) as other:
        lines = records(host.begun(), 5)
        right = position_of(host, 3, lines)
        positions.write(host.name, right)
        ran = run(tally, "node", "--copy", host.name, other.name)
        tally.expect(ran.returncode, Status.OK, f"a copy, with {ran.stderr!r}")
        with open(other.journal(0), encoding="ascii") as text:
            tally.expect(text.read().splitlines()[1:], lines[:3], "the records of the copy")
        copied = right._replace(own=right.counts)
        tally.expect(positions.read(other.name), copied, "the position of the copy: no host made records beyond it")
        tally.expect(other.start().returncode, Status.OK, "the status of a start over the copy")
        is_refused(tally, run(tally, "node", "--copy", host.name, other.name), "a second copy", "move them away")


def only_a_node_appends_to_replicated_journals(tally: Tally) -> None:
    """serve and standby are refused beside a position, but for a node's start; show isn't."""
    with new_host(tally) as host:
        positions.begin(host.begun().name)
        for command, option in (("serve", "--requests"), ("standby", "--feed")):
            ran = host.start(command=command, more=(option, "/dev/null"))
            is_refused(tally, ran, command, "are replicated", "deploy/node")
            ran = host.start("--node", command=command, more=(option, "/dev/null"))
            tally.expect(ran.returncode, Status.OK, f"a node's {command}, with {ran.stderr!r}")
        tally.expect(host.start().returncode, Status.OK, "the status of show")


class NoLoop:
    """A loop that calls nothing by itself: a run is waited for. It notes what is to be called later."""

    READ, WRITE = 1, 4

    def __init__(self) -> None:
        self.later: "list[tuple[float, Callable[[], object]]]" = []

    def call_later(self, delay: float, callback: Callable[[], object]) -> None:
        self.later.append((delay, callback))

    def add_handler(self, *_: object) -> None:
        pass

    def remove_handler(self, _: int) -> None:
        pass


class Files(NamedTuple):
    """A machine's journals, and what went wrong with them."""

    journals: JournalFiles
    faults: "list[Exception]"


def files_of(host: Host, room: int = MOST_BEYOND) -> Files:
    faults: "list[Exception]" = []
    command = [*host_command(host), "--feed", "/dev/stdin"]
    loop: Any = NoLoop()
    run = StandbyRun(loop, command, host.name, "node", faults.append)
    found = JournalFiles(host.name, SHARDS, positions.read(host.name), run, room)
    found.open()
    return Files(found, faults)


def host_command(host: Host) -> "list[str]":
    start = os.path.join(os.path.dirname(os.path.dirname(os.path.dirname(__file__))), "deploy/issuer-run")
    return [start, "--node", *host.program, "standby", *host.files()]


def truncates_what_does_not_count(tally: Tally) -> None:
    """A journal is truncated with its seals, takes another record then, and starts; what counted isn't truncated."""
    with new_host(tally) as host:
        lines = records(host.begun(), 5)
        # (a start seals what the last run wrote)
        host.start()
        positions.write(host.name, position_of(host, 2, lines))
        journals = files_of(host).journals
        tally.expect((journals.length(0), journals.record(0, 3).text), (5, lines[3]), "what is beyond what counts")
        tally.holds("counted before" in refused(lambda: journals.truncate(0, 1)), "what counts is truncated")
        journals.truncate(0, 3)
        with Seals(host.journal(0)) as seals, seals.locked():
            tally.expect(seals.count, 3, "the seals")
        other = Record(0, 3, f"s {PANS[0]}ffff 00 9")
        journals.count_to(0, 3)
        journals.put(other)
        journals.count_to(0, 4)
        try:
            journals.count_to(0, 5)
            tally.fail("a record that isn't there counts")
        except TransientFault as fault:
            tally.holds("which has 4" in str(fault), f"a record that isn't there counts: {fault}")
        journals.standby.end_now()
        with open(host.journal(0), encoding="ascii") as text:
            tally.expect(text.read().splitlines()[1:], [*lines[:3], other.text], "the records then")
        tally.expect((journals.counts()[0], journals.length(0)), (4, 4), "how many count, and how many there are")
        tally.expect(journals.sizes()[0], os.path.getsize(host.journal(0)), "the bytes that count")
        tally.expect(host.start().returncode, Status.OK, "the status of a start afterwards")


def begins_with_what_a_rule_has_room_for(tally: Tally) -> None:
    """Journals and notes that go far beyond the position are truncated at a start, with their seals."""
    with new_host(tally) as host:
        lines = records(host.begun(), 5)
        host.start()
        positions.write(host.name, position_of(host, 1, lines))
        notes = [json.dumps({"number": f"n/{number}", "answer": ""}) for number in range(4)]
        kept = Notes(host.name, 0)
        kept.open()
        for note in notes:
            kept.append(note)
        journals = files_of(host, room=4).journals
        tally.expect(
            (journals.length(0), journals.length(NOTES)), (5, 4), "what there is, as much as there is room for"
        )
        journals = files_of(host, room=3).journals
        found = journals.length(0), journals.counts()[0], journals.length(NOTES)
        tally.expect(found, (4, 1, 3), "what there is, what of it counts, and the notes")
        with open(host.journal(0), encoding="ascii") as text:
            tally.expect(text.read().splitlines()[1:], lines[:4], "the records then")
        with Seals(host.journal(0)) as seals, seals.locked():
            tally.expect(seals.count, 4, "the seals")
        tally.expect(read_notes(host.name)[1], notes[:3], "the notes then")
        tally.expect(host.start().returncode, Status.OK, "the status of a start afterwards")


def truncates_nothing_that_it_read_in_the_stream(tally: Tally) -> None:
    """A machine that followed keeps what it took, however far beyond its position, and stops where it differs."""
    with new_host(tally) as host:
        lines = records(host.begun(), 5)
        host.start()
        at = position_of(host, 1, lines)
        positions.write(host.name, at._replace(own=at.counts))
        journals = files_of(host, room=2).journals
        tally.expect((journals.length(0), journals.shards[0].total()), (3, 5), "what a rule is told, and what there is")
        tally.holds("lost its end" in refused(lambda: journals.own.refuse_rest(journals.logs)), "the rest doesn't come")
        tally.holds("lost its end" in refused(lambda: journals.truncate(0, 2)), "a record that it took is truncated")
        journals.count_to(0, 3)
        other = Record(0, 3, f"s {PANS[0]}ffff 00 9")
        tally.holds("lost its end" in refused(lambda: journals.put(other)), "another record than the one that it took")
        for place in (3, 4):
            journals.put(Record(0, place, lines[place]))
            journals.count_to(0, place + 1)
        tally.holds(not journals.standby.is_running, "what is there isn't appended again")
        tally.expect(refused(lambda: journals.own.refuse_rest(journals.logs)), "", "all came again")
        with open(host.journal(0), encoding="ascii") as text:
            tally.expect(text.read().splitlines()[1:], lines, "the records then")
        tally.expect(journals.sizes()[0], os.path.getsize(host.journal(0)), "the bytes that count")


def truncates_what_a_host_made_once(tally: Tally) -> None:
    """What a host may have recorded is truncated, and what comes in its place isn't; so a position says it."""
    with new_host(tally) as host:
        lines = records(host.begun(), 5)
        host.start()
        at = position_of(host, 2, lines)
        positions.write(host.name, at)
        journals = files_of(host).journals
        own = (5, *at.counts[1:])
        tally.expect(journals.own.at(journals.counts()), own, "what a position says after a host ended")
        journals.truncate(0, 2)
        for place in (2, 3):
            journals.put(Record(0, place, lines[place]))
        tally.expect(journals.own.at(journals.counts()), at.counts, "what a position says then")
        tally.holds("lost its end" in refused(lambda: journals.truncate(0, 3)), "what came then is truncated")
        journals.standby.end_now()
        journals.own.host_begins()
        tally.expect(journals.own.at(journals.counts()), None, "what a position says while a host may record")
        positions.write(host.name, at._replace(own=own))
        journals = files_of(host).journals
        journals.truncate(0, 3)
        tally.expect(journals.length(0), 3, "the records of a host that ended before the position")
        # (the disk has lost some of them, as a disk may that wasn't synced)
        positions.write(host.name, at._replace(own=own))
        journals = files_of(host).journals
        journals.put(Record(0, 3, lines[3]))
        tally.holds("lost its end" in refused(lambda: journals.truncate(0, 3)), "what came after them is truncated")


class AtOnce:
    """Writes positions at once, as `positions.Keeper` does in its thread."""

    def add(self, task: Callable[[], None], then: Callable[[Optional[OSError]], object]) -> None:
        task()
        then(None)


def writes_a_position_once_journals_have_what_counts(tally: Tally) -> None:
    """A position waits while a run of standby hasn't appended what counts there, and is written once that is synced."""
    with new_host(tally) as host:
        lines = records(host.begun(), 5)
        before, after = position_of(host, 2, lines), position_of(host, 5, lines, 9)
        positions.write(host.name, before)
        journals = files_of(host).journals
        user: Any = SimpleNamespace(position=lambda: after, position_failed=tally.fail)
        writer: Any = AtOnce()
        keeper = PositionKeeper(writer, host.name, journals, before, user)
        whole = os.path.getsize(host.journal(0))
        os.truncate(host.journal(0), whole - len(lines[4]) - 1)
        with unittest.mock.patch.object(StandbyRun, "is_running", True):
            keeper.look()
        tally.expect(positions.read(host.name), before, "the position while a record is missing")
        with open(host.journal(0), "a", encoding="ascii") as journal:
            journal.write(f"{lines[4]}\n")
        synced: "list[tuple[str, positions.Position]]" = []

        def sync(file: int) -> None:
            synced.append((os.readlink(f"/proc/self/fd/{file}"), positions.read(host.name)))

        with unittest.mock.patch.object(os, "fdatasync", sync):
            keeper.look()
        tally.expect(synced, [(os.path.realpath(host.journal(0)), before)], "what is synced before the position")
        tally.expect((positions.read(host.name), keeper.kept), (after, after), "the position then")


def refuses_a_record_that_is_none(tally: Tally) -> None:
    """A record that counts and that the program doesn't take needs a person, and so does one of no shard."""
    with new_host(tally) as host:
        positions.begin(host.begun().name)
        for record in (Record(0, 0, "s nothing"), Record(0, 0, f"s {PANS[1]}ffff 00 9")):
            journals = files_of(host).journals
            journals.origin = Origin("stream", 17, "m2")
            journals.put(record)
            said = refused(journals.standby.end_now)
            tally.holds(
                said.startswith(
                    "message 17 of stream, which m2 wrote, has a record that this machine refuses: standby"
                ),
                f"{record} is refused: {said}",
            )
            tally.holds(
                "stop 11 1" in said and "docs/operate/nodes.md" in said, f"what standby said, and what to do: {said}"
            )
        journals = files_of(host).journals
        try:
            journals.put(Record(SHARDS, 0, "s"))
            tally.fail("a record of another shard is put")
        except RefusedRecord as fault:
            tally.holds("no journal here" in str(fault), f"another shard: {fault}")


def ends_a_run_of_standby_that_hangs(tally: Tally) -> None:
    """A run of standby that is to end and doesn't is killed after a while, and the partition begins again."""
    with new_host(tally) as host:
        faults: "list[Exception]" = []
        loop: Any = NoLoop()
        ends: "list[str]" = []
        longest = limits_over(host.name).closing
        for command, is_hanging in ((["/bin/sleep", "600"], True), (["/bin/cat"], False)):
            now = itertools.count(1.0)
            run = StandbyRun(loop, command, host.name, "node", faults.append, lambda: next(now))
            run.put(Record(0, 0, "s nothing"), NOWHERE)
            process = run.runs.run.process if run.runs.run else None
            run.end(lambda: ends.append("ended"))
            if not is_hanging and run.runs.run is not None:
                run.runs.run.end()
            looks = 0
            while run.is_running and looks < 10 * longest:
                _, look = loop.later.pop()
                look()
                looks += 1
            tally.holds(not run.is_running and looks <= longest + 2, f"{command} is killed after {looks} looks")
            tally.expect(looks > 0, is_hanging, f"whether {command} is killed")
            tally.holds(process is not None and process.poll() is not None, f"{command} runs on")
        said = [str(fault) for fault in faults if isinstance(fault, TransientFault)]
        tally.expect((len(faults), len(said), ends), (1, 1, ["ended"]), f"the faults {faults}, and what went on")
        tally.holds("was killed: it doesn't end" in said[0], f"what is said: {said}")


def puts_files_in_place(tally: Tally) -> None:
    """A file is replaced whole and durably, or stays as it was; a link of its name isn't followed."""
    with new_host(tally) as host:
        path, other = f"{host.name}.file", f"{host.name}.other"
        with open(other, "w", encoding="utf-8") as to:
            to.write("other")
        os.symlink(other, path)
        synced: "list[bool]" = []
        sync = os.fsync

        def note(file: int) -> None:
            synced.append(stat.S_ISDIR(os.fstat(file).st_mode))
            sync(file)

        with unittest.mock.patch("os.fsync", note):
            put_in_place(path, "first", 0o644)
        tally.expect(synced, [False, True], "the file is synced, and then its folder")
        tally.expect(
            (os.path.islink(path), stat.S_IMODE(os.stat(path).st_mode)), (False, 0o644), "a link, and the mode"
        )
        with open(other, encoding="utf-8") as text:
            tally.expect(text.read(), "other", "what the link led to")
        for fault in ("os.fsync", "os.replace"):
            with unittest.mock.patch(fault, side_effect=OSError(errno.ENOSPC, "no room")):
                with contextlib.suppress(OSError):
                    put_in_place(path, "second")
            with open(path, encoding="utf-8") as text:
                tally.expect(text.read(), "first", f"the file after a fault of {fault}")
        left = [name for name in os.listdir(os.path.dirname(path)) if ".file." in name]
        tally.expect(left, [], "what is left beside it")


def moves_files_durably(tally: Tally) -> None:
    """A file that gets another name, and what a run notes of its journals, are synced with their folders."""
    with new_folder() as room:
        synced: "list[str]" = []
        sync = os.fsync

        def note(file: int) -> None:
            synced.append(os.path.basename(os.readlink(f"/proc/self/fd/{file}")))
            sync(file)

        for name in ("one", "other"):
            os.mkdir(os.path.join(room, name))
        with open(os.path.join(room, "one/file"), "w", encoding="utf-8") as to:
            to.write("text")
        with unittest.mock.patch("os.fsync", note):
            move_in_place(os.path.join(room, "one/file"), os.path.join(room, "one/named"))
            move_in_place(os.path.join(room, "one/named"), os.path.join(room, "other/file"))
            tally.expect(synced, ["one", "other", "one"], "the folders that are synced")
            with open(os.path.join(room, "other/file"), encoding="utf-8") as text:
                tally.expect(text.read(), "text", "the file")
            synced.clear()
            last_run.write(os.path.join(room, "one/last"), os.path.join(room, "journal"), 0)
        tally.holds(synced[0].startswith(".last."), f"what is noted of a run is synced: {synced}")
        tally.expect(synced[1:], ["one"], "and then its folder")


def knows_the_message_of_a_line(tally: Tally) -> None:
    """The message is found from which a run of standby got a line, until a position is past it."""
    lines, origins = FedLines(), [Origin("stream", offset, f"m{offset}") for offset in range(3)]
    for line, origin in ((1, origins[0]), (2, origins[0]), (3, origins[1]), (5, origins[2])):
        lines.add(line, origin)
    expected = [origins[0], origins[0], origins[1], origins[2], origins[2], None]
    tally.expect([lines.of(line) for line in range(1, 7)], expected, "the messages of the lines")
    tally.expect(len(lines.ends), 3, "what is kept of them")
    lines.forget(1)
    tally.expect((len(lines.ends), lines.of(4)), (1, origins[2]), "what is kept past a position")
    lines.begin()
    tally.expect(lines.of(1), None, "a line of the next run")


def notes_are_kept(tally: Tally) -> None:
    """Notes of work are appended, truncated and counted; a long file loses what nobody asks for, and no place."""
    with new_host(tally) as host:
        notes = Notes(host.name, 0)
        notes.open()
        for number in range(3):
            notes.append(json.dumps({"number": f"n/{number}", "answer": ""}))
        notes.truncate(2)
        tally.expect((notes.length(), read_notes(host.name)[1][1]), (2, notes.text(1)), "notes that were truncated")
        for place in range(2, MOST_LINES + 2):
            notes.append(json.dumps({"number": f"n/{place}", "answer": ""}))
        while notes.beyond:
            notes.count_next()
        notes.append("{}")
        first, lines = read_notes(host.name)
        tally.expect((first + len(lines), lines[-1]), (MOST_LINES + 3, "{}"), "the place of the last note")
        tally.holds(len(lines) < 10, f"{len(lines)} notes are left")
        again = Notes(host.name, MOST_LINES + 2)
        again.open()
        tally.expect((again.length(), list(again.beyond)), (MOST_LINES + 3, ["{}"]), "the notes, opened again")
        tally.holds("hasn't the" in refused(Notes(host.name, MOST_LINES + 4).open), "notes that are missing")


def makes_notes_that_can_be_parsed(tally: Tally) -> None:
    """A note is made only if it can be parsed; other texts are none, whatever JSON they are."""
    begun: "dict[str, Any]" = Begun("n/1", "S", PANS[0], "00", 3, "0" * 64, "1")._asdict()
    ended: "dict[str, Any]" = {"number": "n/1", "answer": "set 0 7"}
    for right in (begun, ended, {**begun, "form": "", "pan": "", "psn": "", "total": 0}, {**begun, "form": DECLINE}):
        tally.expect(work_of(as_note(right)), right, "a note that is parsed")
    tally.expect(work_of(json.dumps(begun)), begun, "a note of an older release")
    wrong_numbers: "tuple[object, ...]" = ("", "é", "a b", "n" * 61, 1, [], None)
    wrong_totals: "tuple[object, ...]" = (-1, True, "1", 1.0)
    wrong_notes: "list[dict[str, Any]]" = [
        *({**begun, "number": value} for value in wrong_numbers),
        *({**begun, "pan": value} for value in (PANS[0] + "\n", "4x")),
        *({**begun, "total": value} for value in wrong_totals),
        *({**begun, "value": value} for value in ("xyz", "0" * 65)),
        *({**ended, "answer": value} for value in ("a\nb", "é", "x" * 501)),
        {},
        {**begun, "more": 1},
        {**ended, "more": 1},
        {**begun, "form": "A"},
        {"answer": "x"},
    ]
    for wrong in wrong_notes:
        said = ""
        try:
            as_note(wrong)
        except OSError as fault:
            said = str(fault.strerror)
        tally.holds(said.startswith("it makes no note that can be read"), f"{wrong} makes a note")
    for text in ("", "no note", "[]", "7", '{"number":{},"form":1}', as_note(ended)[:-2]):
        try:
            tally.fail(f"{text} is parsed as {work_of(text)}")
        except ValueError as fault:
            tally.holds(str(fault), f"{text} is no note")


def refuses_notes_that_were_changed(tally: Tally) -> None:
    """Each bit of a node's notes that is changed is found: they count, and another machine has them."""
    with new_host(tally) as host:
        begun = Begun("n/1", "Q", PANS[0], "00", 0, "5" * 64)
        write_notes(host.name, 7, [as_note(begun._asdict()), as_note({"number": "n/1", "answer": "queued 0 0"})])
        before = read_notes(host.name)
        with open(f"{host.name}.work", "rb") as text:
            data = text.read()
        taken = 0
        # (without its last newline a line is torn, and notes that count are missed then)
        for changed in flipped(data[:-1]):
            write_bytes(host.folder, "journal.work", changed + b"\n")
            taken += not refused(lambda: read_notes(host.name))
        tally.expect((taken, before[0]), (0, 7), f"changed notes of {8 * len(data) - 8} that are taken")
        write_text(host.folder, "journal.work", '{"first": 3}\n{"number":"n/1","answer":""}\n')
        tally.expect(read_notes(host.name), (3, ['{"number":"n/1","answer":""}']), "notes of an older release")


CHECKS = [
    check_of(body)
    for body in (
        refuses_a_wrong_node_file,
        starts_with_a_key_of_its_own_alone,
        reads_keys,
        finds_the_program_that_decides,
        begins_each_partition_once,
        begins_with_no_old_journal_uncopied,
        refuses_a_wrong_position,
        refuses_a_position_that_was_changed,
        copies_what_counts,
        only_a_node_appends_to_replicated_journals,
        truncates_what_does_not_count,
        begins_with_what_a_rule_has_room_for,
        truncates_nothing_that_it_read_in_the_stream,
        truncates_what_a_host_made_once,
        writes_a_position_once_journals_have_what_counts,
        refuses_a_record_that_is_none,
        ends_a_run_of_standby_that_hangs,
        knows_the_message_of_a_line,
        puts_files_in_place,
        moves_files_durably,
        notes_are_kept,
        makes_notes_that_can_be_parsed,
        refuses_notes_that_were_changed,
    )
]
