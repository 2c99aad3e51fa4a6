#!/usr/bin/env python3
"""Runs the gateway by its arguments, and tells which steps of its loop took long.

usage: bench/gateway_steps.py ARGUMENTS OF THE GATEWAY     (bench/gateway_speed --steps runs it)

A step is what the loop does at once: a callback, or a turn of a task. Each that took longer than half a millisecond of
processor time is a line of the standard error at the end: `step`, when it began by the system's clock, the milliseconds
that it took by the processor and by the clock, and what was called.
"""
import asyncio.events
import os
import sys
import time
from typing import NamedTuple

sys.dont_write_bytecode = True
sys.path.insert(0, os.path.dirname(os.path.dirname(os.path.realpath(__file__))))

from issuer_host.gateway.main import main as gateway  # noqa: E402

LEAST_SECONDS = 0.0005


class Step(NamedTuple):
    """A step of the loop."""

    began: float
    processor: float
    clock: float
    what: str


def main() -> int:
    steps: list[Step] = []
    run = asyncio.events.Handle._run

    def timed(handle: asyncio.events.Handle) -> None:
        began, used = time.monotonic(), time.thread_time()
        run(handle)
        processor = time.thread_time() - used
        if processor > LEAST_SECONDS:
            steps.append(Step(began, processor, time.monotonic() - began, repr(handle)))

    setattr(asyncio.events.Handle, "_run", timed)
    try:
        return int(gateway(sys.argv[1:]))
    finally:
        for it in steps:
            print(f"step {it.began:.6f} {1e3 * it.processor:.2f} {1e3 * it.clock:.2f} {it.what}", file=sys.stderr)


if __name__ == "__main__":
    sys.exit(main())
