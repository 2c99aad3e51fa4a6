"""The words of `deploy/order` that aren't an order by a socket and nothing else."""
import argparse
from collections.abc import Sequence
from typing import NamedTuple, Optional


class OrderOptions(NamedTuple):
    """The words of the command."""

    socket: list[str]
    node_file: list[str]
    reach: str
    first: int
    number: Optional[str]
    config: str
    journal: str
    service: list[str]
    queued: Optional[int]
    program: Optional[str]


def options_of(words: Sequence[str], usage: Optional[str]) -> OrderOptions:
    parser = argparse.ArgumentParser(usage=usage)
    parser.add_argument("--socket", nargs="+", default=[])
    parser.add_argument("--node-file", nargs="+", default=[])
    parser.add_argument("--reach", default="")
    parser.add_argument("--first", type=int, default=1)
    parser.add_argument("--number")
    parser.add_argument("--config", default="")
    parser.add_argument("--journal", default="")
    parser.add_argument("--service", nargs="+", default=[])
    parser.add_argument("--queued", type=int)
    parser.add_argument("--program")
    options = OrderOptions(**vars(parser.parse_args(words)))
    running = bool(options.socket) or bool(options.node_file)
    if bool(options.socket) + bool(options.node_file) + bool(options.config and options.journal) != 1:
        parser.error("either --socket, or --node-file, or --config and --journal")
    if (options.reach or options.first != 1) and not options.node_file:
        parser.error("--reach and --first are for orders by --node-file")
    if options.number is not None and not running:
        parser.error("--number is for orders by --socket or --node-file; over journals --queued does it")
    if running and (options.service or options.queued is not None):
        parser.error(
            "--service and --queued are for orders over journals; at a socket nothing stops, and --number does it"
        )
    return options
