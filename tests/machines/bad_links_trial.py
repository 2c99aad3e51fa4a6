"""Bad links and brokers that hang, alarm or are started again, while requests are asked of few partitions."""
import random

from issuer_host.facts.answers import reply_of
from machines.replacing_trial import ReplacingTrial
from trials.bridges.cards import distinct_lines
from trials.bridges.farm import CARDS
from trials.machines.chaos import Round, ask_in_rounds
from trials.machines.history import check_equal
from trials.machines.stalls import Stalls

EVENTS = ("deaf", "mute", "lossy", "slow", "hung", "alarm", "rolling")
LINES, SEED = 100, 6


def bad_links(trial: ReplacingTrial) -> None:
    """All requests are decided once, all machines have the same journals, and all copies are there again."""
    machines, tally = trial.machines, trial.tally
    lines = distinct_lines(CARDS, LINES * len(EVENTS))
    rounds = [Round(event, lines[LINES * number :][:LINES]) for number, event in enumerate(EVENTS)]
    with Stalls(machines) as stalls:
        asked = ask_in_rounds(machines, rounds, random.Random(SEED), stalls)
    for line in lines:
        replies = {reply_of(answer) for answer in asked.answers[line]}
        tally.check(len(replies) == 1 and None not in replies, f"a request has the replies {replies}")
    tally.check(not machines.faults, f"these didn't happen: {machines.faults}")
    trial.whole("after bad links")
    machines.kill_nodes()
    machines.start_nodes()
    check_equal(tally, machines)
    for event, found in asked.silences.items():
        print(f"{event}: a partition was silent for {max(found):.1f} s at most")
