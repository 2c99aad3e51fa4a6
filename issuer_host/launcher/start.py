"""The command `issuer-run` of a tree or an installed copy: the program is the proved one of the sources at hand."""
import os
from collections.abc import Sequence
from typing import Optional

from issuer_host.facts.paths import HOME
from issuer_host.start import careful_start


def why_changed() -> Optional[str]:
    """Returns what changed since the program was proved; None if nothing did, and in a copy without sources."""
    if not os.path.exists(f"{HOME}/crates.txt"):
        return None
    # (a start is a time without answers: a copy without sources, or another program, needs none of this)
    from issuer_host.launcher.proved_program import why_unproved

    return why_unproved()


def main(words: Sequence[str]) -> int:
    return careful_start.main(words, why_changed)
