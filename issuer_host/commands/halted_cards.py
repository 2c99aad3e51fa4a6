"""Looks at the cards in a copy of the journals, while their host runs, and writes figures for Prometheus.

usage: look --config FILE --journal NAME --figures FILE [--partition N] [--program PATH]

It copies the journals into a folder of its own, runs `show` over the copy, and writes how many cards' scripts are
halted into a file for the text file collector of Prometheus' node exporter. Run it by a timer, as the journals' user.
"""
import argparse
import os
import shutil
import tempfile
from collections.abc import Sequence
from typing import NamedTuple, Optional

from issuer_host.facts.journals import journals_of
from issuer_host.facts.refusal import tell
from issuer_host.files.run_mark import mark_path
from issuer_host.files.seals import seals_path
from issuer_host.host import offline
from issuer_host.telling import textfile


class HaltedCardsOptions(NamedTuple):
    """The words of the command."""

    config: str
    journal: str
    figures: str
    partition: int
    program: Optional[str]


def options_of(words: Sequence[str]) -> HaltedCardsOptions:
    parser = argparse.ArgumentParser(usage=__doc__)
    parser.add_argument("--config", required=True)
    parser.add_argument("--journal", required=True)
    parser.add_argument("--figures", required=True)
    parser.add_argument("--partition", type=int, default=0)
    parser.add_argument("--program")
    return HaltedCardsOptions(**vars(parser.parse_args(words)))


def look(options: HaltedCardsOptions) -> None:
    """Shows a copy of the journals. A record that is written meanwhile is a torn last line of the copy, or is in it."""
    with tempfile.TemporaryDirectory(prefix="issuer-look-") as room:
        paths = journals_of(options.journal)
        # (mark and seals first, so that they ask for no record that the copy lacks)
        beside = filter(os.path.exists, [mark_path(options.journal), *map(seals_path, paths)])
        for path in (*beside, *paths):
            shutil.copyfile(path, os.path.join(room, os.path.basename(path)))
        copied = os.path.join(room, os.path.basename(options.journal))
        cards = offline.show(options.config, copied, options.program)
    halted = sum(card.is_halted for card in cards.values())
    values = {"issuer_cards_halted": float(halted), "issuer_cards_seconds": textfile.now()}
    textfile.write(options.figures, {"partition": str(options.partition)}, values)
    print(f"{len(cards)} cards, {halted} of them with halted scripts")


def main(words: Sequence[str]) -> int:
    options = options_of(words)
    os.umask(0o077)
    try:
        look(options)
    except offline.Failed as fault:
        tell("look", str(fault))
        return 1
    except OSError as fault:
        tell("look", f"{fault.filename or 'the copy'}: {fault.strerror}")
        return 1
    return 0
