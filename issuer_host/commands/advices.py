"""Gives out what the gateway acknowledged: advices, reversals, and requests that came after their reversal.

usage: advices take --spool FOLDER [--most N]
       advices confirm BATCH --spool FOLDER
       advices show --spool FOLDER
       advices forget --spool FOLDER --days N
       advices position SEGMENT AT BATCH --spool FOLDER

take      prints what follows the last confirmed batch, N lines at most (1000): first an object with the batch's number
          and how many lines it has, then an object a line. If nothing waits it prints nothing. Until the batch is
          confirmed, each `take` prints the same batch again, byte by byte
confirm   says that a batch was booked; of a batch that was confirmed before it says nothing new
show      prints how many lines wait, since when, and which batch isn't confirmed
forget    removes files of which all lines were confirmed and that are older than so many days. The gateway knows a
          repeat and a reversed request by the last files: keep as many days as a repeat may come late
position  sets how far the lines were given out, if the file that says so is lost: the place of the last line that was
          booked plus its length, and the last batch's number. Only with the account system's own notes at hand

Each line is booked once, however often this command or its caller is killed, if the caller books the lines of a batch
and notes the batch's number in one transaction, and confirms after that. If it finds a batch's number among its notes,
it confirms without booking. The lines have account numbers in clear.
"""
import argparse
import contextlib
import datetime
import fcntl
import json
import os
import sys
import time
from collections.abc import Callable, Iterator, Sequence
from typing import NamedTuple

from issuer_host.facts.refusal import Refusal, tell
from issuer_host.facts.statuses import Status
from issuer_host.files import spool
from issuer_host.files.spool import SpoolLine, SpoolPlace, SpoolPosition

NAME = "advices"
MOST = 1000
# Lines that `show` counts at a time.
COUNTED = 10_000
# Batches, files and offsets stay below. (An account number isn't said again as one that is wrong.)
NUMBER_END = 10**10
DAY_SECONDS = 86_400.0


class AdviceOptions(NamedTuple):
    """The words of the command."""

    what: str
    spool: str
    numbers: list[int]
    most: int
    days: float


# How many numbers follow a word.
WORDS = {"take": 0, "confirm": 1, "show": 0, "forget": 0, "position": 3}


def options_of(words: Sequence[str]) -> AdviceOptions:
    parser = argparse.ArgumentParser(usage=__doc__)
    parser.add_argument("what", choices=sorted(WORDS))
    parser.add_argument("numbers", nargs="*", type=int)
    parser.add_argument("--spool", required=True)
    parser.add_argument("--most", type=int, default=MOST)
    parser.add_argument("--days", type=float, default=0.0)
    found = AdviceOptions(**vars(parser.parse_args(words)))
    if (
        len(found.numbers) != WORDS[found.what]
        or min([0, *found.numbers]) < 0
        or max([0, *found.numbers]) >= NUMBER_END
    ):
        parser.error(f"{found.what} takes {WORDS[found.what]} numbers of at most ten digits")
    if found.most < 1 or found.what == "forget" and found.days <= 0:
        parser.error("--most is 1 at least, and forget takes --days, above 0")
    return found


@contextlib.contextmanager
def own(folder: str) -> Iterator[None]:
    """Lets nobody else give lines out meanwhile."""
    opened = os.open(folder, os.O_RDONLY | os.O_DIRECTORY | os.O_CLOEXEC)
    try:
        fcntl.flock(opened, fcntl.LOCK_EX | fcntl.LOCK_NB)
        yield
    except BlockingIOError as fault:
        raise Refusal(f"another command reads the spool {folder}: wait for its end") from fault
    finally:
        os.close(opened)


def take(options: AdviceOptions) -> None:
    """Prints a batch, which was noted durably before."""
    folder, position = options.spool, spool.read_position(options.spool)
    if position.taken is None:
        lines = spool.lines_of(folder, position.confirmed, options.most)
        if not lines:
            return
        position = SpoolPosition(position.confirmed, position.batch + 1, lines[-1].end)
        spool.write_position(folder, position)
    else:
        lines = taken_lines(folder, position)
    print(json.dumps({"batch": position.batch, "lines": len(lines)}))
    for line in lines:
        print(json.dumps({"number": line.place.text, **line.said()}))
    sys.stdout.flush()


def taken_lines(folder: str, position: SpoolPosition) -> list[SpoolLine]:
    """The lines of the batch that was taken and isn't confirmed."""
    assert position.taken is not None
    found: list[SpoolLine] = []
    begin = position.confirmed
    while begin < position.taken:
        lines = [it for it in spool.lines_of(folder, begin, COUNTED) if it.end <= position.taken]
        if not lines:
            raise Refusal(f"the spool {folder} lacks lines of batch {position.batch}: restore its files from a copy")
        found += lines
        begin = lines[-1].end
    return found


def confirm(options: AdviceOptions) -> None:
    position, batch = spool.read_position(options.spool), options.numbers[0]
    if position.taken is not None and batch == position.batch:
        spool.write_position(options.spool, SpoolPosition(position.taken, batch))
    elif not 0 < batch <= position.batch - (position.taken is not None):
        waits = f"batch {position.batch} waits" if position.taken is not None else "none waits"
        raise Refusal(f"batch {batch} wasn't taken: {waits} to be confirmed")


def show(options: AdviceOptions) -> None:
    position, folder = spool.read_position(options.spool), options.spool
    count, oldest, begin = 0, "", position.confirmed
    while True:
        lines = spool.lines_of(folder, begin, COUNTED)
        if not lines:
            break
        oldest = oldest or str(lines[0].said().get("time", "unknown"))
        count, begin = count + len(lines), lines[-1].end
    print(f"waiting {count}" + (f", the oldest since {oldest}" if oldest else ""))
    print(f"batch {position.batch}" + (" is taken and not confirmed" if position.taken else " is confirmed"))


def forget(options: AdviceOptions) -> None:
    position = spool.read_position(options.spool)
    before = time.time() - options.days * DAY_SECONDS
    for number in spool.segments_of(options.spool)[:-1]:
        path = spool.segment_path(options.spool, number)
        if number < position.confirmed.segment and os.stat(path).st_mtime < before:
            written = datetime.datetime.fromtimestamp(os.stat(path).st_mtime).isoformat(timespec="seconds")
            os.remove(path)
            print(f"removed {path}, written until {written}")


def set_position(options: AdviceOptions) -> None:
    segment, at, batch = options.numbers
    place = SpoolPlace(segment, at)
    ends = {line.end for line in spool.lines_of_segment(options.spool, SpoolPlace(segment), sys.maxsize)} | {
        SpoolPlace(segment)
    }
    if place not in ends:
        raise Refusal(f"no line of file {segment} ends at {at}")
    spool.write_position(options.spool, SpoolPosition(place, batch))


DOES: dict[str, Callable[[AdviceOptions], None]] = {
    "take": take,
    "confirm": confirm,
    "show": show,
    "forget": forget,
    "position": set_position,
}


def main(words: Sequence[str]) -> int:
    os.umask(0o077)
    options = options_of(words)
    try:
        with own(options.spool):
            DOES[options.what](options)
    except Refusal as refusal:
        tell(NAME, str(refusal))
        return Status.REFUSED
    except OSError as fault:
        tell(NAME, f"{fault.filename or options.spool}: {fault.strerror}")
        return Status.PASSES
    return Status.OK
