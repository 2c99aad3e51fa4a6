"""Finds transactions in the gateway's log of messages, and says what was asked, decided and why.

usage: trace --log NAME [--stan N] [--rrn N] [--approval CODE] [--card PAN] [--at TIME [--within SECONDS]]
             [--journal NAME] [--config FILE]

--log       what the gateway has as --trace: NAME.audit and the full files before it (NAME.audit.1 ..) are searched
--stan, --rrn, --approval
            elements 11, 37 and 38 of the message
--card      the PAN, masked as in the log: 400000******0002
--at        the message's time as in the log, or the beginning of it: 2026-12-01T09:31. Times are in UTC; with --within
            so many seconds before and after it
--journal, --config
            what the gateway has, with {} for the partition's number: then the record of a decision is read, the row of
            the table is named that decides it, and whether today's table would decide otherwise

All that is given has to fit. With --approval and --journal a record is found without a log too. Each message is a block
of lines, in the order of the log. PANs are masked. The status is 0 if something was found, and 1 otherwise.
"""
import argparse
import datetime
import sys
from collections.abc import Iterator, Sequence
from typing import Any, NamedTuple

from issuer_host.commands import trace_record
from issuer_host.commands.message_lines import Wanted, found_in
from issuer_host.facts.answers import DECISIONS, kind_of
from issuer_host.facts.approval_codes import decision_of_code
from issuer_host.facts.masks import masked
from issuer_host.facts.refusal import Refusal, tell
from issuer_host.facts.refusal_reasons import reason_of
from issuer_host.facts.statuses import Status

NAME = "trace"
NOT_FOUND = 1
# Members of a line, in the order and with the words in which they are printed.
ASKED = {"card": "card", "atc": "ATC", "amount": "amount", "currency": "currency", "terminal": "terminal"}


class TraceOptions(NamedTuple):
    """The words of the command."""

    log: str
    stan: str
    rrn: str
    approval: str
    card: str
    at: str
    within: float
    journal: str
    config: str


def options_of(words: Sequence[str]) -> TraceOptions:
    parser = argparse.ArgumentParser(usage=__doc__)
    for name in ("log", "stan", "rrn", "approval", "card", "at", "journal", "config"):
        parser.add_argument(f"--{name}", default="")
    parser.add_argument("--within", type=float, default=0.0)
    found = TraceOptions(**vars(parser.parse_args(words)))
    if not any((found.stan, found.rrn, found.approval, found.card, found.at)):
        parser.error("give --stan, --rrn, --approval, --card or --at")
    if not found.log and not (found.approval and found.journal):
        parser.error("give --log, or --approval with --journal")
    if found.within and moment_of(found.at) is None:
        parser.error("--within takes a whole --at, as 2026-12-01T09:31:04")
    if found.config and not found.journal:
        parser.error("--config takes --journal: the table is held against a record")
    return found


def moment_of(text: str) -> "datetime.datetime | None":
    try:
        found = datetime.datetime.fromisoformat(text.replace("Z", ""))
    except ValueError:
        return None
    return found.replace(tzinfo=None)


def wanted_of(options: TraceOptions) -> Wanted:
    fields = {"stan": options.stan, "rrn": options.rrn, "approval": options.approval.upper()}
    card = masked(options.card) if options.card.isdecimal() else options.card
    moment = moment_of(options.at) if options.within else None
    return Wanted(
        {**{name: it for name, it in fields.items() if it}, **({"card": card} if card else {})},
        options.at,
        moment,
        options.within,
    )


def blocks_of(said: "dict[str, Any]", options: TraceOptions) -> Iterator[str]:
    """The lines about a message."""
    names = " ".join(f"{word} {said[name]}" for name, word in (("stan", "STAN"), ("rrn", "RRN")) if said.get(name))
    yield f"{said.get('time')} {said.get('type')} {names} of {said.get('from')}, {said.get('dialect')}"
    yield "  asked: " + ", ".join(f"{word} {said[name]}" for name, word in ASKED.items() if said.get(name))
    code = said.get("code")
    answered = f"element 39 is {code}" if code else "no response"
    approval = f", element 38 is {said['approval']}" if said.get("approval") else ""
    yield f"  answered: {answered}{approval}, after {said.get('ms')} ms"
    if said.get("account"):
        yield f"  account: {said['account']}"
    if said.get("why"):
        yield f"  why: {said['why']}"
    yield from host_lines(said, options)


def host_lines(said: "dict[str, Any]", options: TraceOptions) -> Iterator[str]:
    """What the host said, and the record of a decision."""
    answer = str(said.get("answer", ""))
    if answer in DECISIONS:
        verdict = "approves" if said.get("approves") else "declines"
        yield f"  host: {answer}, {verdict}; record {said['place']} of shard {said['shard']}"
        if options.journal:
            place = trace_record.RecordPlace(int(said.get("partition", 0)), int(said["shard"]), int(said["place"]))
            yield from trace_record.lines_about(place, options.journal, options.config)
    elif answer:
        reason = reason_of(kind_of(answer).refusal)
        yield f"  host: {answer}" + (f": {reason}" if reason else "")
    elif said.get("atc") and not said.get("why"):
        yield "  host: no answer in time, or it wasn't asked. It may have decided: look for a repeat"


def trace(options: TraceOptions) -> bool:
    """Prints what is found. Returns whether something was."""
    is_found = False
    for said in found_in(options.log, wanted_of(options)) if options.log else ():
        is_found = True
        print("\n".join(blocks_of(said, options)))
    if is_found or not (options.approval and options.journal):
        return is_found
    try:
        shard, place = decision_of_code(options.approval.upper())
    except ValueError as wrong:
        raise Refusal(str(wrong)) from wrong
    for partition in trace_record.partitions_of(options.journal):
        found = trace_record.RecordPlace(partition, shard, place)
        lines = list(trace_record.lines_about(found, options.journal, options.config))
        if trace_record.exists(found, options.journal):
            is_found = True
            print(f"approval {options.approval.upper()}: record {place} of shard {shard}, partition {partition}")
            print("\n".join(lines))
    return is_found


def main(words: Sequence[str]) -> int:
    options = options_of(words)
    try:
        is_found = trace(options)
    except Refusal as refusal:
        tell(NAME, str(refusal))
        return Status.REFUSED
    except OSError as fault:
        tell(NAME, f"{fault.filename or 'the system'}: {fault.strerror}")
        return Status.PASSES
    if not is_found:
        tell(NAME, "nothing fits. Times are in UTC; the log begins with the gateway's start with --trace")
        sys.stdout.flush()
        return NOT_FOUND
    return Status.OK
