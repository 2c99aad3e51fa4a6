"""Processor time of processes, as the kernel counts it."""
import os

# Fields of a process after its name: the group, and user and system time of itself and of those it has waited for.
GROUP = 2
TIMES = slice(11, 15)


def fields_of(process: int) -> list[str]:
    """Returns what the kernel says of a process, after its name."""
    with open(f"/proc/{process}/stat", encoding="utf-8", errors="replace") as text:
        return text.read().rpartition(")")[2].split()


def seconds_of(process: int) -> float:
    """Returns the processor time of a process that runs, and of those that it has waited for."""
    return sum(map(int, fields_of(process)[TIMES])) / float(os.sysconf("SC_CLK_TCK"))


def group_of(leader: int) -> list[int]:
    """Returns the processes that were started by one that leads a group."""
    found = []
    for process in filter(str.isdecimal, os.listdir("/proc")):
        try:
            if int(fields_of(int(process))[GROUP]) == leader:
                found.append(int(process))
        except OSError:
            # (it ended meanwhile)
            continue
    return found
