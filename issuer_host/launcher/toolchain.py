"""The toolchain's command `rt`, and its identity."""
import shutil
import subprocess
from typing import Optional


def toolchain() -> Optional[str]:
    """Returns the path of the toolchain's command, or None."""
    return shutil.which("rt")


def kit_of(rt: str) -> Optional[str]:
    """Returns the toolchain's one-line identity, or None."""
    command = [rt, "version"]
    try:
        ran = subprocess.run(command, stdin=subprocess.DEVNULL, capture_output=True, text=True, timeout=60, check=True)
    except (OSError, subprocess.SubprocessError):
        return None
    return ran.stdout.strip() or None
