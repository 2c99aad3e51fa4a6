"""Whether others than its user can open a file that has keys or account numbers."""
import os
import stat
import struct
from collections.abc import Collection

from issuer_host.facts.refusal import Refusal

# What others may not do with a journal, and nobody needs.
OPEN_TO_OTHERS = 0o177
# Linux's access list of a file: after a version of four bytes, the kind of each entry, what it may, and whom it names.
ACCESS_LIST = "system.posix_acl_access"
LIST_HEAD = 4
ENTRY = "<HHI"
USER, OWN_GROUP, GROUP = 0x02, 0x04, 0x08
READ_OR_WRITE = 6


def check_private(path: str, what: str) -> None:
    """Refuses a file that isn't this user's alone, or that isn't the only name of what it holds."""
    found = os.lstat(path)
    if what != "pipe" and not stat.S_ISREG(found.st_mode):
        raise Refusal(f"the {what} {path} is no regular file: move it away")
    if what == "pipe" and not stat.S_ISFIFO(found.st_mode):
        raise Refusal(f"{path} is no pipe")
    if found.st_uid != os.geteuid():
        owners = f"belongs to user {found.st_uid}, and this is user {os.geteuid()}"
        raise Refusal(f"the {what} {path} {owners}: chown it, or start as its owner")
    if found.st_mode & OPEN_TO_OTHERS:
        mode = f"mode {stat.S_IMODE(found.st_mode):04o}"
        raise Refusal(f"the {what} {path} has {mode}, so that others could open it: chmod 600 {path}")
    if found.st_nlink != 1:
        raise Refusal(f"the {what} {path} has {found.st_nlink} names: remove the others")


def check_input(path: str) -> None:
    """Refuses a named pipe that others could write to. Files and /dev/stdin are the caller's."""
    if os.path.exists(path) and not os.path.islink(path) and stat.S_ISFIFO(os.lstat(path).st_mode):
        check_private(path, "pipe")


def check_keys(path: str, owners: Collection[int]) -> None:
    """Refuses a configuration, with the issuer's keys, that another user owns or can open."""
    check_secret(path, "configuration", "keys", owners)


def check_secret(path: str, what: str, holds: str, owners: Collection[int] = ()) -> None:
    """Refuses a file with keys or passwords that another user than root and this one owns or can open.

    One that can't be seen is refused by who reads it.
    """
    try:
        found = os.stat(path)
    except OSError:
        return
    if found.st_nlink == 0:
        # (it has no name: others can't open it)
        return
    allowed = owners or {0, os.geteuid()}
    if found.st_uid not in allowed:
        raise Refusal(f"the {what} {path} belongs to user {found.st_uid}, who can read its {holds}: chown it to root")
    if are_others_let_in(path, found, allowed):
        mode = f"mode {stat.S_IMODE(found.st_mode):04o}"
        raise Refusal(f"the {what} {path} has {mode}, so that others could open it, and its {holds}: chmod 600 {path}")


def are_others_let_in(path: str, found: os.stat_result, owners: Collection[int]) -> bool:
    """Whether a user but the owners may read or write a file.

    A credential of the service manager has an access list. The bits of the group are then its mask, and no group's.
    """
    if found.st_mode & stat.S_IRWXO:
        return True
    if not found.st_mode & stat.S_IRWXG:
        return False
    try:
        entries = os.getxattr(path, ACCESS_LIST)[LIST_HEAD:]
    except OSError:
        return True
    for kind, may, whom in struct.iter_unpack(ENTRY, entries):
        names_another = kind in (OWN_GROUP, GROUP) or kind == USER and whom not in owners
        if names_another and may & READ_OR_WRITE:
            return True
    return False
