"""Starts the program over its journals, or refuses if a start would forget what was decided.

usage: issuer-run [--begin] [--accept-journals] [--node] [--program PATH] [--last-run FILE]
                  serve|show|clear|export|standby --config FILE --journal NAME ..

The words from the command on are the program's own; see issuer(1). Before it hands over to the program it checks:

- the program is the one whose proof is recorded beside it, and in a tree no source changed since; or another that
  --program names
- standard input, output and error output are open
- the configuration, with its keys, can be opened by this user and root alone
- if keys of the configuration are wrapped, the token that ISSUER_TOKEN names unwraps them (`deploy/keys`). A PIN that
  the token refused before isn't tried again
- a journal exists for each shard of the configuration, and for no shard past them. If none exists, --begin creates
  them, empty, once: the program copies the records of old journals, of version 1, into them. If old journals exist,
  all do
- each journal, old or not, is a regular file of this user, with one name, that no other user can open; so is a pipe
  that --requests or --feed names
- seals, mark and position beside the journals are regular files of this user that no other user can open
- no journal is empty where another has records
- each journal is what the seals beside it say (`JOURNAL.seals`), and hasn't grown since its last run ended (`NAME.run`)
- no journal is shorter, and no seals are fewer, than the last run found or left them
- no bytes come after a journal's last newline that no crash leaves. How many a crash left is told
- serve and standby don't append to journals that are replicated (`NAME.position`): only a node does, with --node

--accept-journals, once, accepts the journals as they are where one of the four before the last is refused: the host
forgets what they lack, and seals are made anew.

--last-run names a file outside the journals' folder, below /run: it says which files the partition's last run had.
Other ones are refused, as where a disk went away over an older copy, until FILE is removed. Journals that were moved or
copied since that run ended aren't others.

Started by root over journals in another user's folder, it goes on as that user, who need not be able to read the
configuration's file. The program gets such a configuration, and one with wrapped keys, by a pipe that holds it once. No
core of this command and of the program is allowed.

Each start, and each that is refused, is a line of the log beside the journals (`JOURNAL.audit`).

Otherwise it ends with status 78, and the error output has a sentence on what to do; with 70 there is no proved program;
with 75 something failed that passes, as a disk that can't be read for a moment.
"""
import os
import sys
import time
from collections.abc import Callable, Sequence
from typing import NamedTuple, Optional

from issuer_host.facts.commands import COMMANDS, CONFIG, JOURNAL, OVER_JOURNALS, Option, value_of
from issuer_host.facts.faults import lasts
from issuer_host.facts.memory import keep_from_others
from issuer_host.facts.paths import HOST, PROGRAM, ProgramName, RECORD
from issuer_host.facts.proof import is_proved, sum_of
from issuer_host.facts.refusal import Refusal, tell
from issuer_host.facts.statuses import Status
from issuer_host.files.audit import Audit
from issuer_host.files.folders import folder_of
from issuer_host.files.private_files import check_input, check_keys
from issuer_host.files.seals import ACCEPTS
from issuer_host.start.held_configuration import read_configuration, refused_pin_path, with_configuration
from issuer_host.start.history_checks import APPENDING, check_history
from issuer_host.start.journal_checks import check_journals, refuse_replicated
from issuer_host.start.users import become_owner

NAME = "issuer-run"
# An upgrade puts the program and the record of its proof in place one after the other.
PROOF_LOOKS = 5
PROOF_SECONDS = 1.0
# The word of a node's starts.
NODE = "--node"
PROGRAM_OPTION, LAST_RUN = WITH_VALUES = "--program", "--last-run"
STREAMS = ("standard input", "standard output", "the error output")


class CarefulStart(NamedTuple):
    """The words of the command: those before the program's own, and those."""

    begins: bool
    # Whether journals are taken that aren't as they were left.
    accepts: bool
    # Another program than the proved one.
    program: Optional[str]
    # Whether it is a node's, which alone appends to journals that are replicated.
    is_node: bool
    # The file that says which journals the partition's last run had; none if it is empty.
    last_run: str
    words: list[str]


def start_of(words: Sequence[str]) -> CarefulStart:
    given: dict[str, str] = {}
    words = list(words)
    while words and words[0] in ("--begin", ACCEPTS, NODE, *WITH_VALUES):
        word, *words = words
        if word in WITH_VALUES and not words:
            raise Refusal(f"{word} and its value are missing")
        given[word] = words.pop(0) if word in WITH_VALUES else ""
    flags = "--begin" in given, ACCEPTS in given, given.get(PROGRAM_OPTION), NODE in given
    return CarefulStart(*flags, given.get(LAST_RUN, ""), words)


def needed(option: Option, words: Sequence[str]) -> str:
    """Returns the value of an option."""
    value = value_of(option, words)
    if not value:
        raise Refusal(f"{option.name} and its value are missing")
    return value


def check_descriptors() -> None:
    for number, name in enumerate(STREAMS):
        try:
            os.fstat(number)
        except OSError as fault:
            what = f"{name} is closed, so that a file would take its place; open it, on /dev/null at least"
            raise Refusal(what) from fault


def owners_of(words: Sequence[str]) -> set[int]:
    """Returns the users who may own the configuration: root, this one, and that of the journals."""
    found = {0, os.geteuid()}
    try:
        found.add(os.stat(folder_of(needed(JOURNAL, words))).st_uid)
    except OSError:
        # (refused when the journals are looked for)
        pass
    return found


def nothing_changed() -> Optional[str]:
    return None


def program_of(start: CarefulStart, why_changed: Callable[[], Optional[str]]) -> Optional[str]:
    """Returns the path of the program that is started, or None if there is no proved one."""
    if start.program is not None:
        if start.words[0] in APPENDING and not is_proved(start.program):
            tell(NAME, f"{start.program} isn't the proved program: nothing is proved of what it answers")
        return start.program
    why = why_changed() if is_proved_soon() else f"{PROGRAM} isn't the program of a proof that is recorded beside it"
    if why is None:
        return PROGRAM
    tell(NAME, f"{why}. Run ./issuer prove, or install the package")
    return None


def is_proved_soon(name: ProgramName = HOST) -> bool:
    """Whether a program is the one that the record of its proof names, now or after an upgrade's last step."""
    for look in range(PROOF_LOOKS):
        if look:
            time.sleep(PROOF_SECONDS)
        if is_proved(name.path, name=name):
            return True
        if not os.path.exists(name.path) and not os.path.exists(RECORD):
            return False
    return False


def hand_over(start: CarefulStart, why_changed: Callable[[], Optional[str]]) -> int:
    """Checks all that there is to check, and becomes the program. It returns only if it doesn't."""
    user = os.getuid()
    os.umask(0o077)
    keep_from_others()
    check_descriptors()
    check_keys(needed(CONFIG, start.words), owners_of(start.words))
    words = start.words
    configuration = read_configuration(needed(CONFIG, words))
    configuration.find_token(owners_of(words))
    is_readable = not become_owner(os.path.dirname(needed(JOURNAL, words)) or ".")
    shards = configuration.shards
    configuration.unwrap(refused_pin_path(needed(JOURNAL, words), start.last_run))
    check_journals(needed(JOURNAL, words), shards, start.begins, start.accepts)
    if words[0] in APPENDING and not start.is_node:
        refuse_replicated(needed(JOURNAL, words))
    lines = COMMANDS[words[0]].lines
    if lines and lines.may_be_piped:
        check_input(needed(lines.option, words))
    program = program_of(start, why_changed)
    if program is None:
        return Status.NO_PROGRAM
    check_history(words[0], needed(JOURNAL, words), shards, start.accepts, start.last_run)
    Audit(needed(JOURNAL, words), NAME).started(words[0], user, program=sum_of(program))
    os.execv(program, ["issuer", *with_configuration(words, configuration.path_for_program(is_readable))])


def run(words: Sequence[str], why_changed: Callable[[], Optional[str]]) -> int:
    if list(words) in (["--help"], ["-h"]):
        print(__doc__, end="")
        return Status.OK
    start = start_of(words)
    if not start.words or start.words[0] not in OVER_JOURNALS:
        print(__doc__, end="", file=sys.stderr)
        return Status.WORDS
    return hand_over(start, why_changed)


def note_refusal(words: Sequence[str], user: int, why: str) -> None:
    """Has the log say of a start that was refused."""
    command = next((word for word in words if word in OVER_JOURNALS), "")
    journal = value_of(JOURNAL, words)
    if command and os.path.isdir(os.path.dirname(journal) or "."):
        Audit(journal, NAME).started(command, user, why)


def main(words: Sequence[str], why_changed: Callable[[], Optional[str]] = nothing_changed) -> int:
    """Starts the program. `why_changed` says what isn't as it was when that was proved; None if all is."""
    user = os.getuid()
    try:
        return run(words, why_changed)
    except Refusal as refusal:
        tell(NAME, str(refusal))
        note_refusal(words, user, str(refusal))
    except OSError as fault:
        tell(NAME, f"{fault.filename or 'the program'}: {fault.strerror}")
        return Status.REFUSED if lasts(fault) else Status.PASSES
    return Status.REFUSED
