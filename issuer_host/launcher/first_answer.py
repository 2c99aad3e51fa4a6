"""How long a build without proofs takes until it answers, by what else the machine does."""
import math
import os

# Processor seconds of a build and its run, by two processes at once: measured, docs/assurance/measured.md.
PROCESSOR_SECONDS = 64.0
PROCESSES = 2


def seconds(own: int, processors: int, load: float) -> float:
    """Returns the seconds of a build, on this many processors of its own, beside as many programs as the load."""
    return PROCESSOR_SECONDS / min(own, PROCESSES) * (1 + load / processors)


def estimate() -> str:
    """Spells the estimate for this machine as it is now."""
    load = os.getloadavg()[0]
    processors = os.cpu_count() or 1
    about = math.ceil(seconds(len(os.sched_getaffinity(0)), processors, load) / 60)
    if about <= 1:
        return "in about a minute"
    return f"in about {about} minutes, at a load of {load:.0f} on {processors} processors"
