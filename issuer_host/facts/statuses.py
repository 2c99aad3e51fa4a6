"""The exit statuses: what each means, its cause in words, and whether a new start ends in the same way."""
import signal
from enum import IntEnum
from typing import NamedTuple


class Status(IntEnum):
    """How a run ended. Those up to 12 are the program's own."""

    OK = 0
    WORDS = 1
    CONFIGURATION = 2
    UNREADABLE = 3
    OUTPUT = 4
    JOURNAL_CLOSED = 5
    JOURNAL_WRONG = 6
    MEMORY = 7
    TOO_LONG = 8
    BAD_DOL = 9
    BAD_DATA = 10
    BAD_FEED = 11
    NO_KEY = 12
    # The service's: the words of a bridge are no command.
    USAGE = 64
    # The launcher's: there is no program to run.
    NO_PROGRAM = 70
    # The service's: what passes, such as want of memory or a fault that nobody thought of.
    PASSES = 75
    # A start that issuer-run or the bridge refused.
    REFUSED = 78


# How a run ended that was killed, or that fell: a signal is negative.
KILLED = tuple(-int(number) for number in (signal.SIGKILL, signal.SIGTERM, signal.SIGSEGV, signal.SIGABRT))


class Meaning(NamedTuple):
    """What a status means to whoever runs the host, and its cause by the numbers of the last line `stop STATUS ..`.

    The names in braces are filled in: `{config}` and `{lines}` are the files that the command-line arguments name,
    `{kind}` is what the lines are called, `{first}` and `{second}` are the numbers after the status. `{old}` is the old
    journal of shard `{first}`, and `{new}` its journal. `{done}` is what is done with a journal, and `{part}` is the
    place in the configuration.
    """

    meaning: str
    cause: str = ""
    # How many numbers the last line has after the status.
    numbers: int = 0
    # A new start ends in the same way until a person has acted.
    ends_again: bool = False


MEANINGS = {
    Status.OK: Meaning("the run ended"),
    Status.WORDS: Meaning(
        "the arguments are no command: compare the unit with issuer(1)",
        "the arguments are no command; ./issuer alone tells which there are",
        ends_again=True,
    ),
    Status.CONFIGURATION: Meaning(
        "the configuration is invalid: run deploy/partition again, or restore the file",
        "the configuration {config} can't be used: {part}",
        numbers=2,
        ends_again=True,
    ),
    Status.UNREADABLE: Meaning(
        "the configuration, the requests or the feed can't be read",
        "reading failed, of {config}",
    ),
    Status.OUTPUT: Meaning("the output failed", "the output could not be written"),
    Status.JOURNAL_CLOSED: Meaning(
        "a journal can't be opened or locked, or its device failed",
        "shard {first}'s journal {new}, or its old one {old}, can't be opened, {done} or synced, or another program has"
        " it open",
        numbers=1,
    ),
    Status.JOURNAL_WRONG: Meaning(
        "a line of a journal is no valid record under this configuration: see `A journal that doesn't load` in"
        " docs/formats/journals.md",
        "is {config} the configuration of these journals? Under it line {second} of shard {first}'s journal {new} is"
        " no record, none that may come there, or no copy of the old journal's",
        numbers=2,
        ends_again=True,
    ),
    Status.MEMORY: Meaning(
        "out of memory",
        "no memory was left; no line was answered, judged or taken, and no world was played to its end",
    ),
    Status.TOO_LONG: Meaning(
        "the run reached its limit of lines or bytes",
        "line {first} of the {kind} {lines} is past the limit of lines or bytes",
        numbers=1,
    ),
    Status.BAD_DOL: Meaning(
        "the DOL is invalid",
        "the entry at byte {first} of the DOL is torn or past a limit: a tag of one to three bytes and a length, 64"
        " entries, 252 bytes in all",
        numbers=1,
    ),
    Status.BAD_DATA: Meaning(
        "the data that the DOL is filled from are invalid",
        "the object at byte {first} of the data is torn, repeats a tag or is past a limit: 64 objects, values of 64"
        " bytes",
        numbers=1,
    ),
    Status.BAD_FEED: Meaning(
        "a line of the feed is no feed line, or has a record that may not come next: see `A standby` in"
        " docs/operate/standby.md",
        "line {first} of the feed {lines} is no feed line, names no shard of {config}, or has a record that may not"
        " come next in its shard: was the feed made under another configuration, or by a host that decided otherwise?"
        " What was taken before is in the journals",
        numbers=1,
    ),
    Status.NO_KEY: Meaning(
        "the card, the key set or its `smc` is missing for a PIN change",
        "no card of {config} has this PAN and PSN, no key set has this DKI, or that key set has no `smc`",
    ),
    Status.USAGE: Meaning("the words of the bridge are no command: compare the unit with it", ends_again=True),
    Status.NO_PROGRAM: Meaning("there is no proved program to run", ends_again=True),
    Status.PASSES: Meaning("something failed that passes"),
    Status.REFUSED: Meaning("the start was refused", ends_again=True),
}
# With these a new start ends in the same way until a person has acted.
NOT_AGAIN = tuple(status for status, row in MEANINGS.items() if row.ends_again)
# The service manager doesn't start a bridge again that ends with one of these. A bridge whose host ends with WORDS ends
# with USAGE: Python itself ends with 1 if it can't begin, and that passes.
NOT_RESTARTED = tuple(status for status in NOT_AGAIN if status is not Status.WORDS)


def meaning_of(status: int) -> str:
    """Says what a status means: one of a program, of a shell after a signal, or of a process that a signal ended."""
    if status < 0 or status > 128:
        return f"it was ended by signal {-status if status < 0 else status - 128}"
    try:
        return MEANINGS[Status(status)].meaning
    except ValueError:
        return "a status that this version doesn't know"
