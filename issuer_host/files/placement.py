"""Puts a whole file in place: written beside it, synced, renamed, and the folder synced.

This is the one way in which a file is replaced or gets another name. A reader sees the old bytes or the new ones,
whole, and so does a start after a loss of power. `tests/lint` refuses a rename elsewhere in the package.
"""
from __future__ import annotations

import os
import tempfile
from typing import Union

from issuer_host.files.folders import folder_of, sync_folder

OWN = 0o600


def put_in_place(path: str, data: Union[str, bytes], mode: int = OWN) -> None:
    """Replaces a file by these bytes or by a text, or leaves it as it was. A link of its name isn't followed."""
    folder = folder_of(path)
    held, new = tempfile.mkstemp(dir=folder, prefix=f".{os.path.basename(path)}.")
    try:
        with os.fdopen(held, "wb") as file:
            file.write(data.encode("utf-8") if isinstance(data, str) else data)
            file.flush()
            os.fchmod(held, mode)
            os.fsync(held)
        os.replace(new, path)
    except BaseException:
        os.unlink(new)
        raise
    sync_folder(folder)


def move_in_place(path: str, to: str) -> None:
    """Gives a file or a folder, which is whole and synced, another name, durably. What had that name is replaced."""
    os.replace(path, to)
    folders = folder_of(path), folder_of(to)
    sync_folder(folders[1])
    if not os.path.samefile(*folders):
        sync_folder(folders[0])
