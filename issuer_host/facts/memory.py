"""Keeps what a process has in memory from cores and from other processes of its user."""
import ctypes
import resource

# Linux's number for prctl.
PR_SET_DUMPABLE = 4


def keep_from_others() -> None:
    """Allows no core of this process and of those that it becomes or starts, and no look into this one.

    A program that it becomes has the limit of cores still. Whether that one can be looked into is the system's to say
    (`kernel.yama.ptrace_scope`): the kernel forgets the second at an exec.
    """
    resource.setrlimit(resource.RLIMIT_CORE, (0, 0))
    try:
        ctypes.CDLL(None).prctl(PR_SET_DUMPABLE, 0, 0, 0, 0)
    except (OSError, AttributeError):
        # (no Linux)
        pass
