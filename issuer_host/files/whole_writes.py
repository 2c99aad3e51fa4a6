"""Writes that are whole or fail: the system may write a part and say so, as a disk does that fills."""
import os


def write_whole(file: int, data: bytes, at: int) -> None:
    """Writes all bytes at an offset, or raises what keeps the remainder from being written."""
    while data:
        written = os.pwrite(file, data, at)
        data = data[written:]
        at += written
