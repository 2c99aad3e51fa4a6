"""The lock that a node has over the journals of a partition."""
import fcntl
import os

from issuer_host.files.regular_files import open_regular
from issuer_host.replication.standby_run import TransientFault

LOCK = ".node"


def locked(journal: str) -> int:
    """Locks the journals for this node for as long as it lives."""
    file = open_regular(journal + LOCK, os.O_RDWR | os.O_CREAT)
    try:
        fcntl.flock(file, fcntl.LOCK_EX | fcntl.LOCK_NB)
    except BlockingIOError as fault:
        os.close(file)
        raise TransientFault(f"another node has the journals {journal}") from fault
    return file
