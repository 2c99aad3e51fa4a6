"""Files in folders of another user: what root does there, it does as that user, and follows no link."""
import contextlib
import os
import stat
from collections.abc import Iterator

from issuer_host.facts.refusal import Refusal
from issuer_host.files.regular_files import open_regular

OTHERS_WRITE = 0o022


def folder_of(path: str) -> str:
    return os.path.dirname(path) or "."


def sync_folder(folder: str) -> None:
    """Makes the names of a folder durable."""
    opened = os.open(folder, os.O_RDONLY | os.O_DIRECTORY | os.O_CLOEXEC)
    try:
        os.fsync(opened)
    finally:
        os.close(opened)


def check_folder(folder: str) -> os.stat_result:
    """Returns what the system says of a folder. It refuses one that somebody else could exchange or write to."""
    check_links(os.path.abspath(folder))
    found = os.stat(folder)
    if found.st_mode & OTHERS_WRITE:
        mode = f"mode {stat.S_IMODE(found.st_mode):04o}"
        raise Refusal(f"the folder {folder} has {mode}, so that others could put files there: chmod 700 {folder}")
    return found


def check_links(path: str) -> None:
    """Refuses a path with a link that neither root nor this user made."""
    while path != os.path.dirname(path):
        found = os.lstat(path)
        if stat.S_ISLNK(found.st_mode) and found.st_uid not in (0, os.geteuid()):
            raise Refusal(f"{path} is a link that user {found.st_uid} made: name the folder that it leads to")
        path = os.path.dirname(path)


@contextlib.contextmanager
def as_owner(folder: str) -> Iterator[None]:
    """Goes on as a folder's user for a moment, if this is root and that isn't."""
    owner = check_folder(folder)
    if os.geteuid() != 0 or owner.st_uid == 0:
        yield
        return
    groups = os.getgroups()
    os.setgroups([])
    os.setegid(owner.st_gid)
    os.seteuid(owner.st_uid)
    try:
        yield
    finally:
        os.seteuid(0)
        os.setegid(0)
        os.setgroups(groups)


def open_own(path: str, flags: int) -> int:
    """Opens a file of a folder as the folder's user. A link isn't followed."""
    with as_owner(folder_of(path)):
        return open_regular(path, flags)
