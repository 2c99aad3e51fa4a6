"""Why a journal can't be opened, as far as it can be seen: a run ends with one status for all of it."""
import fcntl
import os
import stat
from typing import Optional

OTHERS_WRITE = 0o002


def why_closed(path: str, is_written: bool) -> Optional[str]:
    """Says why a program couldn't open a journal; None if nothing is seen, or if there is no such file.

    An old journal isn't written.
    """
    try:
        found = os.lstat(path)
    except FileNotFoundError:
        return None
    except OSError as fault:
        return f"{path} can't be seen: {fault.strerror}"
    if stat.S_ISLNK(found.st_mode):
        return f"{path} is a symbolic link: name the folder that it leads to"
    if not stat.S_ISREG(found.st_mode):
        return f"{path} is no regular file"
    if found.st_mode & OTHERS_WRITE:
        return f"everyone may write {path}: chmod 600 it, once you know that nobody did"
    return why_not_locked(path, os.O_RDWR if is_written else os.O_RDONLY)


def why_not_locked(path: str, access: int) -> Optional[str]:
    """Says why a regular file can't be opened or locked."""
    try:
        opened = os.open(path, access | os.O_NOFOLLOW | os.O_NONBLOCK | os.O_CLOEXEC)
    except OSError as fault:
        return f"{path} can't be opened: {fault.strerror}"
    try:
        fcntl.flock(opened, fcntl.LOCK_EX | fcntl.LOCK_NB)
    except BlockingIOError:
        return f"another program has {path} open: a host that runs, another command, or a copy that locks it"
    except OSError:
        return None
    finally:
        os.close(opened)
    return None
