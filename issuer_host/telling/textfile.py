"""Figures in a file, for the text file collector of Prometheus' node exporter."""
import time
from collections.abc import Mapping

from issuer_host.files.placement import put_in_place

# The collector is another user.
FOR_ALL = 0o644
# By name: what each says.
FIGURES = {
    "issuer_follow_unwritten_bytes": "Bytes of a journal that the standby's feed doesn't have yet",
    "issuer_follow_seconds": "When the follower last looked, in seconds of Unix",
    "issuer_backup_seconds": "When the last copy of the journals was made that loads, in seconds of Unix",
    "issuer_cards_halted": "Cards whose scripts are halted",
    "issuer_cards_seconds": "When the cards were looked at, in seconds of Unix",
}


def write(path: str, labels: Mapping[str, str], values: Mapping[str, float]) -> None:
    """Writes figures with one set of labels, whole or not at all."""
    named = ",".join(f'{name}="{value}"' for name, value in labels.items())
    text = ""
    for name, value in values.items():
        text += f"# HELP {name} {FIGURES[name]}\n# TYPE {name} gauge\n{name}{{{named}}} {value}\n"
    put(path, text)


def put(path: str, text: str) -> None:
    """Puts a text in place of a file, which all may read. Others may have files and links in its folder."""
    put_in_place(path, text, FOR_ALL)


def now() -> float:
    return round(time.time(), 3)
