"""Work that processes of this one's making do at the same time, and what they refuse."""
import os
import sys
from collections.abc import Callable, Sequence
from typing import TypeVar

from issuer_host.facts.refusal import Refusal
from issuer_host.facts.statuses import Status

Job = TypeVar("Job")
MOST_TEXT = 65_536


def do_all(jobs: Sequence[Job], do: Callable[[Job], object], processes: int) -> None:
    """Does all jobs, by so many processes. Raises the refusal of the first job that is refused.

    A fault in a process is an OSError here: what it was is on the error output.
    """
    if processes <= 1:
        for job in jobs:
            do(job)
        return
    children = [start([*enumerate(jobs)][number::processes], do) for number in range(processes)]
    refusals = []
    has_failed = False
    for child, output in children:
        with os.fdopen(output, "rb") as said:
            text = said.read().decode()
        status = os.waitstatus_to_exitcode(os.waitpid(child, 0)[1])
        if status == Status.REFUSED:
            place, _, why = text.partition(" ")
            refusals.append((int(place), why))
        has_failed = has_failed or status not in (Status.OK, Status.REFUSED)
    if refusals:
        raise Refusal(min(refusals)[1])
    if has_failed:
        raise ChildProcessError("a check of the journals failed")


def start(jobs: Sequence[tuple[int, Job]], do: Callable[[Job], object]) -> tuple[int, int]:
    """Starts a process that does some jobs. Returns it, and where its refusal comes: the job's place, and why."""
    output, to = os.pipe()
    child = os.fork()
    if child:
        os.close(to)
        return child, output
    status = Status.PASSES
    place = 0
    try:
        for place, job in jobs:
            do(job)
        status = Status.OK
    except Refusal as refusal:
        os.write(to, f"{place} {refusal}".encode()[:MOST_TEXT])
        status = Status.REFUSED
    except Exception as fault:
        print(f"issuer-run: {fault}", file=sys.stderr, flush=True)
    finally:
        os._exit(status)
