"""Files beside the journals: a pipe, a folder or a link that has the name of one hangs nobody, and is told."""
import errno
import os
import stat

# What the system says where a folder, a link or a pipe has the name.
OF_OTHERS = (errno.EISDIR, errno.ELOOP, errno.ENXIO)
WHAT = "is no regular file: move it away"


def open_regular(path: str, flags: int, mode: int = 0o600) -> int:
    """Opens a regular file. What else has its name is an OSError that needs a person (`faults`)."""
    try:
        # (a pipe is opened without waiting for its other end)
        file = os.open(path, flags | os.O_NONBLOCK | os.O_NOFOLLOW | os.O_CLOEXEC, mode)
    except OSError as fault:
        if fault.errno in OF_OTHERS:
            raise OSError(fault.errno, WHAT, path) from fault
        raise
    if not stat.S_ISREG(os.fstat(file).st_mode):
        os.close(file)
        raise OSError(errno.ENXIO, WHAT, path)
    return file
