"""Runs all partitions of one machine of several: each is served here, or follows what another machine records.

usage: node NODE.json
       node --begin NODE.json
       node --copy FROM TO
       node --anew NODE.json [MACHINE=PATTERN ..]

A partition's history is its stream at the broker, which deploy/queues declares with --streams. The queue delivers a
partition's requests to one machine, whose node runs the partition's host; the nodes of the others take what counts into
their journals, and go on where it ends. No reply is sent before its record counts in the stream.

--begin  creates the journals of partitions that have none, empty, and their positions before the first message of
         their streams. Once, on each machine; journals that exist have to be the same ones on all of them
--copy   begins a partition on a new machine: copies the journals FROM of another machine, as far as they count at
         the position beside them, to TO, which no node may have open. FROM may be in use; if it is copied from
         elsewhere by other means, its file .position is copied before its journals

--anew   begins all partitions anew whose streams lost their end, once on each machine, with all nodes ended. PATTERN
         says where the journals of another MACHINE were copied to, with {} for the partition's number. It takes those
         of the machine that served last, says why, and moves its own away. queues --streams-anew then declares the
         streams

NODE.json  the machine's name, the files with the broker's URL and with the cluster's key, and the partitions;
           docs/formats/streams.md has its members

Each change of a partition is a line of the error output: `node: partition N: STATE`, and why. STATE is away (no
connection), reading (what was written meanwhile), waiting (in the line of the queue's consumers), beginning (its
barrier doesn't count yet), serving, or stopped: that one needs a person, and the others go on.

It ends with 0 at SIGTERM, with 78 if NODE.json is wrong, or if all partitions are stopped and it gives no figures, with
70 if there is no proved program that decides by the rule of several machines, and with 75 if something failed that
passes: start it again. With figures it stays where all partitions are stopped, so that these say it: end it before you
put right what it asks for.
"""
import argparse
import re
from collections.abc import Sequence

from issuer_host.facts.journals import shards_of_files
from issuer_host.facts.refusal import Refusal
from issuer_host.facts.service_words import ServiceWords
from issuer_host.facts.statuses import Status
from issuer_host.facts.troubles import Level, say
from issuer_host.replication import anew, cluster_keys, node_file, positions, rule_choice
from issuer_host.start.held_configuration import shards_of
from issuer_host.start.journal_checks import create_journals

NAME = "node"
PATTERN = re.compile(r"[^=]+=.*[{][}].*")


def begin(path: str) -> None:
    """Creates the positions of all partitions that have none, and the journals of those that have none."""
    for one in node_file.read(path).partitions:
        found_here = shards_of_files(one.journal)
        if not found_here.journals and not found_here.olds:
            create_journals(one.journal, shards_of(one.configuration))
        found = positions.begin(one.journal)
        print(f"partition {one.number} begins with {sum(found.counts)} records, {found.digest}")


def copy(source: str, target: str) -> None:
    found = positions.copy(source, target)
    print(f"{target} has {sum(found.counts)} records, which count up to message {found.offset}")


def begin_anew(path: str, patterns: Sequence[str]) -> None:
    """Begins all partitions of a machine anew from the journals of the machine that served each last."""
    settings = node_file.read(path)
    copies = dict((machine, pattern) for machine, _, pattern in (one.partition("=") for one in patterns))
    if settings.machine in copies:
        raise Refusal(f"{settings.machine} is this machine: its own journals are those of {path}")
    for one in settings.partitions:
        print(anew.begin_anew(one, settings.machine, copies), flush=True)


def options_of(words: Sequence[str]) -> argparse.Namespace:
    parser = ServiceWords(NAME, __doc__)
    parser.add_argument("node", nargs="?")
    which = parser.add_mutually_exclusive_group()
    which.add_argument("--begin", action="store_true")
    which.add_argument("--copy", nargs=2)
    which.add_argument("--anew", nargs="+")
    options = parser.parse_args(words)
    if bool(options.node) == bool(options.copy or options.anew):
        parser.error("it takes NODE.json, or --copy with two names of journals")
    for pattern in (options.anew or [])[1:]:
        if not PATTERN.fullmatch(pattern):
            parser.error(f"{pattern} isn't MACHINE=PATTERN, with {{}} for the partition's number")
    return options


def run(options: argparse.Namespace) -> int:
    if options.copy:
        copy(*options.copy)
        return Status.OK
    if options.anew:
        begin_anew(options.anew[0], options.anew[1:])
        return Status.OK
    if options.begin:
        begin(options.node)
        return Status.OK
    settings = node_file.read(options.node)
    keys = cluster_keys.read(settings.cluster_key_file)
    # (what needs no broker needs no pika)
    from issuer_host.replication.all_partitions import AllPartitions

    found = AllPartitions(settings, keys)
    return found.run() if rule_choice.has_rule(settings) else Status.NO_PROGRAM


def main(words: Sequence[str]) -> int:
    options = options_of(words)
    try:
        return run(options)
    except Refusal as refusal:
        say(NAME, Level.ERROR, str(refusal))
        return Status.REFUSED
