"""Going on as the user of the journals' folder."""
import os
import stat

from issuer_host.facts.refusal import Refusal
from issuer_host.files.folders import check_folder


def become_owner(folder: str) -> bool:
    """Goes on as the folder's user if this is root and that isn't. Returns whether the user changed."""
    try:
        owner = check_folder(folder)
    except FileNotFoundError as fault:
        raise Refusal(f"there is no folder {folder} for the journals: is its disk mounted?") from fault
    if os.geteuid() != 0 or owner.st_uid == 0:
        return False
    if stat.S_ISFIFO(os.fstat(0).st_mode):
        # (/dev/stdin is opened by its name)
        os.fchown(0, owner.st_uid, owner.st_gid)
    os.setgroups([])
    os.setgid(owner.st_gid)
    os.setuid(owner.st_uid)
    return True
