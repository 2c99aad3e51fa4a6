"""Puts request lines to the hosts behind the broker, and prints the answers in the order of the lines.

usage: ask --partitions P [--broker-file FILE] [--window N] [--seconds S] < LINES

--partitions  how many partitions there are: the `of` of any configuration that deploy/partition made
--window      lines in flight at a time (64)
--seconds     how long to wait for an answer (60)

A line is published to the partition of its card until it is answered. Three neighbouring lines are one message, and
have one answer: `S PAN PSN DIGIT`, a request of that card, and `S PAN PSN DIGIT` again. They are a request that its
account declines. The card has the first status for that request alone, and then the one that it had before, whatever
the third line's digit. Other lines of the forms Q and S are refused: a queue may repeat them; use deploy/order.

The status is 0 if each line was answered, and 1 otherwise; lines without an answer may be recorded, and can be asked
again.
"""
import argparse
import sys
from collections.abc import Sequence
from typing import NamedTuple, Optional

from issuer_host.broker.messages import messages_of
from issuer_host.broker.publisher import Asker, PublishedRequest, Unanswered
from issuer_host.facts.refusal import Refusal, tell


class AskOptions(NamedTuple):
    """The words of the command."""

    partitions: int
    broker_file: Optional[str]
    window: int
    seconds: float


def options_of(words: Sequence[str]) -> AskOptions:
    parser = argparse.ArgumentParser(usage=__doc__)
    parser.add_argument("--partitions", type=int, required=True)
    parser.add_argument("--broker-file")
    parser.add_argument("--window", type=int, default=64)
    parser.add_argument("--seconds", type=float, default=60.0)
    return AskOptions(**vars(parser.parse_args(words)))


def ask(options: AskOptions, messages: Sequence[str]) -> None:
    """Asks all messages, and prints the answers as far as there is one for each before."""
    answers: dict[int, str] = {}
    printed = 0

    def answered(question: PublishedRequest, text: str) -> None:
        answers[question.number] = text

    try:
        with Asker(options.partitions, options.broker_file, options.window, options.seconds, answered) as asker:
            for _ in asker.ask_all(messages):
                while printed in answers:
                    print(answers.pop(printed), flush=True)
                    printed += 1
    except Unanswered as fault:
        raise Refusal(f"{len(messages) - printed} of {len(messages)} answers are unprinted: {fault}") from fault


def main(words: Sequence[str]) -> int:
    options = options_of(words)
    lines = sys.stdin.read().splitlines()
    try:
        ask(options, messages_of(lines))
    except Refusal as refusal:
        tell("ask", str(refusal))
        return 1
    return 0
