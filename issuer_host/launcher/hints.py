"""What words that are no command are near to. No hint repeats an option's value: it may be a PIN."""
import os
from collections.abc import Iterable, Sequence
from typing import Optional

from issuer_host.facts.commands import COMMANDS, Command, JOURNAL, OPTIONS, value_of
from issuer_host.facts.journals import journal_path, old_journal_path

# Words that stand alone, and what may follow nevertheless.
ALONE = {"--help": "", "-h": "", "help": "", "--version": "", "prove": ", or with --anew", "test": ""}
HELP = ("--help", "-h")
KNOWN = (*COMMANDS, "check", "prove", "test", "help", "--help", "--version", "--never-build", *OPTIONS)
# What a command does over journals that it begins. If they were there before, their name is wrong.
OVER_NOTHING = {
    "serve": "decides every request anew",
    "show": "prints cards without records",
    "clear": "finds no decision",
    "export": "prints no line",
    "standby": "takes records from the first one on",
}

# Of a word that is neither a command nor an option so many characters are compared and told.
SHOWN = 60


def hint(words: Sequence[str]) -> str:
    """Says what words that can be no command are near to; nothing if there is nothing to say."""
    command = words[0].partition("=")[0]
    if command in ALONE:
        return f"`{command}` stands alone{ALONE[command]}"
    if command not in COMMANDS:
        return of_unknown(command)
    row = COMMANDS[command]
    return of_options(row, words) or of_missing(row, words) or of_values(words)


def of_unknown(command: str) -> str:
    near = nearest(command, KNOWN)
    if near in OPTIONS:
        users = [row.name for row in COMMANDS.values() if OPTIONS[near] in row.options]
        return f"there is no command `{shown(command)}`; the option `{near}` comes after {any_of(users)}"
    return f"there is no command `{shown(command)}`{did_you_mean(near)}"


def shown(word: str) -> str:
    """Returns a word that nobody knows, as far as it is worth telling."""
    return word if len(word) <= SHOWN else f"{word[:SHOWN]} .."


def of_options(command: Command, words: Sequence[str]) -> str:
    """Says what is wrong with the first word that should be an option of the command and isn't."""
    names = [option.name for option in command.options]
    given = words[1::2]
    for number, option in enumerate(given, 1):
        name = option.partition("=")[0]
        if name != option and name in names:
            return f"write `{name} VALUE` for `{name}=VALUE`"
        if option in HELP:
            return "./issuer --help prints the usage"
        if not name.startswith("-"):
            return f"word {2 * number} is no option: after `{command.name}` come pairs of an option and its value"
        if option not in names:
            return f"`{command.name}` has no option `{shown(name)}`{did_you_mean(nearest(name, names))}"
        if given.count(option) > 1:
            return f"`{shown(option)}` stands twice"
    return ""


def of_missing(command: Command, words: Sequence[str]) -> str:
    missing = [option.name for option in command.needed if option.name not in words[1::2]]
    return f"`{command.name}` needs `{missing[0]}`" if missing else ""


def of_values(words: Sequence[str]) -> str:
    """Says what is wrong with the first value that its option doesn't take."""
    for name, value in zip(words[1::2], [*words[2::2], ""]):
        if not value or value.startswith("-"):
            return f"`{name}` needs a value that isn't empty and doesn't begin with a hyphen"
        if not OPTIONS[name].takes(value):
            return f"`{name}` is {OPTIONS[name].rule}"
    return ""


def new_journal(words: Sequence[str]) -> str:
    """Says which journal a command begins; nothing if the first one exists."""
    does, name = OVER_NOTHING.get(words[0]), value_of(JOURNAL, words)
    paths = journal_path(name, 0), old_journal_path(name, 0)
    if not does or any(map(os.path.exists, paths)):
        return ""
    return f"there is no journal {paths[0]}: `{words[0]}` creates empty ones, and {does}"


def did_you_mean(near: Optional[str]) -> str:
    return f"; did you mean `{near}`?" if near else ""


def any_of(names: Iterable[str]) -> str:
    """Joins names to a text, the last by `or`."""
    *others, last = (f"`{name}`" for name in names)
    return f"{', '.join(others)} or {last}" if others else last


def nearest(word: str, known: Sequence[str]) -> Optional[str]:
    """Returns the known word that is near to this one, or None."""
    word = word.lower()[:SHOWN]
    near = min(known, key=lambda name: distance(word, name))
    starts = [name for name in known if len(word) > 1 and name.startswith(word)]
    if distance(word, near) <= max(1, len(near.strip("-")) // 3):
        return near
    return starts[0] if len(starts) == 1 else None


def distance(one: str, other: str) -> int:
    """Returns how many letters to insert, remove, change or exchange with the next, to make one word of the other."""
    before: list[int] = []
    above = list(range(len(other) + 1))
    for i, letter in enumerate(one, 1):
        row = [i]
        for j, expected in enumerate(other, 1):
            best = min(above[j] + 1, row[j - 1] + 1, above[j - 1] + (letter != expected))
            if i > 1 and j > 1 and letter == other[j - 2] and one[i - 2] == expected:
                best = min(best, before[j - 2] + 1)
            row.append(best)
        before, above = above, row
    return above[-1]
