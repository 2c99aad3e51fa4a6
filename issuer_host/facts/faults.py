"""Faults of the system: those that need a person, and those that pass."""
import errno

from issuer_host.facts.refusal import Refusal

# A new try ends in the same way until somebody has made, mounted, moved or granted something.
LASTING = (
    *(errno.ENOENT, errno.ENOTDIR, errno.EISDIR, errno.ELOOP, errno.ENAMETOOLONG),
    *(errno.EACCES, errno.EPERM, errno.EROFS, errno.ENOEXEC, errno.ENXIO),
)


def lasts(fault: OSError) -> bool:
    """Whether a fault needs a person."""
    return fault.errno in LASTING


def refuse_if_lasting(fault: OSError, what: str) -> None:
    """Refuses what a lasting fault is in the way of. It returns if the fault passes."""
    if lasts(fault):
        raise Refusal(what) from fault
