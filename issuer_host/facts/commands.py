"""The program's commands: their options, what values these take, and which of them open journals."""
import re
from collections.abc import Sequence
from typing import NamedTuple, Optional

from issuer_host.facts.limits import MAX_CALLERS, MAX_CARDS, MAX_OPTION_BYTES

ANYTHING = r"[^-].*"
A_NUMBER = r"0|[1-9][0-9]{0,9}"


class Option(NamedTuple):
    """An option: its name, how the usage names its value, and what that value has to be."""

    name: str
    value: str
    # What a value has to be, in words; nothing if any value will do that isn't empty and begins with no hyphen.
    rule: str = ""
    pattern: str = ANYTHING
    numbers: Optional[range] = None
    names_a_file: bool = False

    def takes(self, value: str) -> bool:
        """Whether the value has the option's form."""
        if not re.fullmatch(self.pattern, value, re.DOTALL):
            return False
        return self.numbers is None or int(value) in self.numbers


def name_of_files(name: str, value: str) -> Option:
    return Option(name, value, names_a_file=True)


def whole_number(name: str, value: str, least: int, most: int) -> Option:
    rule = f"a whole number from {least} to {most:,}"
    return Option(name, value, rule, A_NUMBER, range(least, most + 1))


def bytes_in_hexadecimal(name: str, most: int) -> Option:
    rule = f"1 to {most:,} bytes, each two hexadecimal digits"
    return Option(name, "HEX", rule, f"([0-9A-Fa-f]{{2}}){{1,{most}}}")


def digits(name: str, value: str, rule: str, pattern: str) -> Option:
    return Option(name, value, rule, pattern)


CONFIG = name_of_files("--config", "FILE")
REQUESTS = name_of_files("--requests", "FILE")
CLEARING = name_of_files("--clearing", "FILE")
FEED = name_of_files("--feed", "FILE")
JOURNAL = name_of_files("--journal", "NAME")
CALLERS = whole_number("--callers", "N", 1, MAX_CALLERS)
CARDS = whole_number("--cards", "N", 1, MAX_CARDS)
STEPS = whole_number("--steps", "M", 0, 200_000)
SEED = whole_number("--seed", "S", 0, 4_294_967_295)
DOL = bytes_in_hexadecimal("--dol", MAX_OPTION_BYTES)
DATA = bytes_in_hexadecimal("--data", MAX_OPTION_BYTES)
PAN = digits("--pan", "PAN", "8 to 19 decimal digits", "[0-9]{8,19}")
PSN = digits("--psn", "NN", "two decimal digits", "[0-9]{2}")
DKI = digits("--dki", "HH", "two hexadecimal digits", "[0-9A-Fa-f]{2}")
SALT = digits("--salt", "HEX", "16 hexadecimal digits", "[0-9A-Fa-f]{16}")
PIN = digits("--pin", "DIGITS", "4 to 12 decimal digits", "[0-9]{4,12}")


class Lines(NamedTuple):
    """What a command reads line by line: the option that names the file, and what a message calls it."""

    option: Option
    kind: str
    # Whether it may come by a pipe that a bridge or a feed writes while the command runs.
    may_be_piped: bool


class Command(NamedTuple):
    """A command: its options in the order of its usage, and what it does, in a sentence without a full stop."""

    name: str
    does: str
    needed: tuple[Option, ...]
    others: tuple[Option, ...] = ()
    lines: Optional[Lines] = None

    @property
    def options(self) -> tuple[Option, ...]:
        return self.needed + self.others

    @property
    def opens_journals(self) -> bool:
        return JOURNAL in self.needed

    @property
    def usage(self) -> str:
        """The command and its options in one line, those that may be absent in brackets."""
        needed = [f"{option.name} {option.value}" for option in self.needed]
        others = [f"[{option.name} {option.value}]" for option in self.others]
        return " ".join([self.name, *needed, *others])


TABLE = (
    Command(
        "serve",
        "answers each request line of a file, and keeps a journal for each shard",
        (CONFIG, REQUESTS, JOURNAL),
        (CALLERS,),
        Lines(REQUESTS, "request file", may_be_piped=True),
    ),
    Command("show", "prints a line for each card, as the journals say", (CONFIG, JOURNAL)),
    Command(
        "clear",
        "holds a day's transaction certificates against the journals: prints a verdict for each, and what is still"
        " open",
        (CONFIG, CLEARING, JOURNAL),
        lines=Lines(CLEARING, "clearing file", may_be_piped=False),
    ),
    Command("export", "prints a feed line for each record, by shard and index", (CONFIG, JOURNAL)),
    Command(
        "standby",
        "takes the records of another host's feed into journals of its own, and prints how many records each shard has",
        (CONFIG, FEED, JOURNAL),
        lines=Lines(FEED, "feed", may_be_piped=True),
    ),
    Command(
        "world",
        "plays cards, terminals, a network and their issuer's host in memory, and prints eleven counts",
        (CARDS, STEPS, SEED),
    ),
    Command(
        "fill",
        "fills a card's list of data objects (DOL) from data objects, as a terminal does, and prints the bytes",
        (DOL, DATA),
    ),
    Command(
        "pin",
        "prints the request line that queues a new PIN for a card; docs/assurance/threats.md says who can see it",
        (CONFIG, PAN, PSN, DKI, SALT, PIN),
    ),
)
COMMANDS = {command.name: command for command in TABLE}
OPTIONS = {option.name: option for command in TABLE for option in command.options}
# The commands that open, lock and load all journals. The others go to the program as they are.
OVER_JOURNALS = tuple(command.name for command in TABLE if command.opens_journals)


def value_of(option: Option, words: Sequence[str]) -> str:
    """Returns the word after an option, or an empty one."""
    for at in range(len(words) - 1):
        if words[at] == option.name:
            return words[at + 1]
    return ""
