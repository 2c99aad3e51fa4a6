"""Keys from custodians and from other systems, into a configuration whose keys a token wraps.

usage: keys begin --officer-pin FILE
       keys join   --into FILE --dki N --use USE [--components N] [--log FILE]
       keys import --into FILE --dki N --use USE --block FILE [--version-c] [--components N] [--log FILE]
       keys export --from FILE --dki N --use USE [--version B|D] [--components N] [--log FILE]
       keys check  --config FILE
       keys uses   --journal NAME

- begin makes the token that ISSUER_TOKEN names, files with its PINs, and the key under which it wraps others.
- join makes a key of the components that its custodians type. USE is ac, smi, smc, aes_ac or aes_smi.
  --option, A or B, makes a key set with this DKI where the file has none.
- import takes the key of a key block (ANSI X9.143), and export prints one, under a protection key of components.
- check has the token unwrap each key of a configuration, and compares the check values.
- uses says of each DKI how many records of the journals are under it, and of how many cards the last one is.

ISSUER_TOKEN is a URI: pkcs11:token=NAME;object=KEY?module-path=FILE&pin-source=file:FILE. Components are typed without
echo, or come a line each, `CUSTODIAN DIGITS`, from the descriptor of --components-from. Each check value is shown and
has to be confirmed, with --yes by whoever compares them before; nothing is written before. --log names a file that gets
a line for each ceremony: who confirmed which check value, and when.
"""
from __future__ import annotations

import argparse
import getpass
import json
import os
import secrets
import sys
import time
from collections import Counter
from collections.abc import Sequence

from issuer_host.facts.journals import Decided, journal_path, record_of, records_of, shards_of_files
from issuer_host.facts.refusal import Refusal, tell
from issuer_host.facts.statuses import Status
from issuer_host.files.placement import put_in_place
from issuer_host.keys import key_block
from issuer_host.keys.ceremony_log import Ceremony, CeremonyLog
from issuer_host.keys.components import (
    Component,
    FEWEST,
    PROTECTION_LENGTHS,
    component_of,
    joined_key,
    lacks_parity,
    protection_key,
)
from issuer_host.keys.key_block import Header
from issuer_host.keys.master_key import BadKey, check_key, check_value
from issuer_host.keys.token import Token, opened_token
from issuer_host.keys.new_token import begin_token
from issuer_host.keys.token_uri import read_uri
from issuer_host.keys.uses import KEY_BYTES, Suite, Use
from issuer_host.keys.wrapped_keys import Json, WrappedKey, key_set_of, with_key, wrapped_keys
from issuer_host.start.held_configuration import TOKEN, read_configuration

NAME = "keys"
YES = "yes"
PROTECTION = "key block protection key"
# Custodians, each with the check value of its component.
Checked = tuple[tuple[str, str], ...]


class Custodians:
    """Where components come from, and who confirms check values: people at a terminal, or a descriptor."""

    def __init__(self, options: argparse.Namespace) -> None:
        self.count: int = options.components
        self.confirmed: bool = options.yes
        self.lines: list[str] = []
        if options.components_from is not None:
            with os.fdopen(options.components_from, encoding="ascii", closefd=False) as source:
                self.lines = source.read().splitlines()
        self.is_typed = options.components_from is None

    def components(self, of: str, suite: Suite, lengths: Sequence[int]) -> list[Component]:
        """Returns the components of a key, each check value confirmed."""
        found = []
        for number in range(1, self.count + 1):
            custodian, digits = self.typed(of, number) if self.is_typed else self.given(of)
            component = component_of(custodian, digits, lengths)
            self.confirm(f"component {number} of the {of}, of {component.custodian}", component.check_value(suite))
            found.append(component)
        return found

    def protection_key(self, suite: Suite) -> tuple[bytes, Checked]:
        """Returns a protection key of key blocks, and its custodians with their check values."""
        components = self.components(PROTECTION, suite, PROTECTION_LENGTHS[suite])
        key = protection_key(components)
        self.confirm(f"the {PROTECTION}", check_value(suite, key))
        return key, checked(components, suite)

    def given(self, of: str) -> tuple[str, str]:
        if not self.lines:
            raise Refusal(f"the descriptor has no line for a component of the {of}")
        custodian, _, digits = self.lines.pop(0).partition(" ")
        return custodian, digits

    def typed(self, of: str, number: int) -> tuple[str, str]:
        custodian = input(f"component {number} of the {of}: the custodian's name: ").strip()
        return custodian or f"custodian {number}", getpass.getpass("its digits, which aren't shown: ")

    def confirm(self, what: str, value: str) -> None:
        """Shows a check value, and goes on once it is confirmed."""
        print(f"{what}: check value {value}", file=sys.stderr, flush=True)
        if not self.confirmed and input(f"is {value} the one that is expected? Type {YES}: ").strip() != YES:
            raise Refusal(f"the check value {value} was not confirmed: nothing was written")


def uri_of_machine() -> str:
    text = os.environ.get(TOKEN)
    if not text:
        raise Refusal(f"set {TOKEN} to the token's URI: pkcs11:token=NAME;object=KEY?module-path=FILE")
    return text


def token_of_machine() -> Token:
    return opened_token(uri_of_machine())


def begin(options: argparse.Namespace) -> None:
    uri = read_uri(uri_of_machine())
    begin_token(uri, options.officer_pin, lambda count: "".join(secrets.choice("0123456789") for _ in range(count)))
    print(f"the token {uri.token} has the key {uri.key}")
    tell(NAME, f"the PIN is in {uri.pin_file}, and the security officer's in {options.officer_pin}: keep that one away")


def join(options: argparse.Namespace) -> None:
    use = Use(options.use)
    custodians = Custodians(options)
    components = custodians.components(f"key dki {options.dki} {use.value}", use.suite, (KEY_BYTES,))
    key = joined_key(use.suite, components, options.set_parity)
    if lacks_parity(use.suite, components):
        tell(NAME, "the exclusive or of the components has even parity: odd parity is set, and no check value changes")
    put(options, custodians, "joined", key, checked(components, use.suite))


def put(options: argparse.Namespace, custodians: Custodians, what: str, key: bytes, by: Checked) -> None:
    """Has a key confirmed, wrapped by the token, and written into a configuration or template."""
    use = Use(options.use)
    check_key(use.suite, key)
    value = check_value(use.suite, key)
    custodians.confirm(f"the key dki {options.dki} {use.value}", value)
    held = read_members(options.into)
    key_set = key_set_of(held, options.dki, options.option)
    with token_of_machine() as token:
        wrapped = token.wrap(key)
    text = json.dumps(with_key(held, key_set, use, wrapped, value), indent=1) + "\n"
    put_in_place(options.into, text)
    note(options, Ceremony(what, name_of(options), use.suite.value, value, by))
    print(f"{options.into}: keys with dki {options.dki}: {use.value} is wrapped, check value {value}")


def import_block(options: argparse.Namespace) -> None:
    use = Use(options.use)
    custodians = Custodians(options)
    with open(options.block, encoding="ascii") as file:
        block = file.read().strip()
    version = key_block.version_of(block[:1])
    protecting, by = custodians.protection_key(version.suite)
    key = key_block.master_key_of(block, protecting, use, options.version_c)
    if use.suite is Suite.AES and version.suite is Suite.TRIPLE_DES:
        tell(NAME, "a key for AES comes under triple DES, which is weaker: ask for a block of version D")
    put(options, custodians, "imported", key, by)


def export_block(options: argparse.Namespace) -> None:
    use = Use(options.use)
    custodians = Custodians(options)
    version = key_block.version_of(options.version)
    protecting, by = custodians.protection_key(version.suite)
    found = [one for one in wrapped_keys(read_members(options.of)) if (one.dki, one.use) == (options.dki, use)]
    if not found:
        raise Refusal(f"{options.of} has no wrapped key dki {options.dki} {use.value}")
    with token_of_machine() as token:
        key = token.unwrapped(found[0])
    header = Header(version.letter, key_block.USAGES[use], key_block.ALGORITHMS[use.suite], "X", "00", "E")
    block = key_block.build(header, protecting, bytes(key), secrets.token_bytes)
    note(options, Ceremony("exported", name_of(options), use.suite.value, found[0].check_value, by))
    print(block)


def check(options: argparse.Namespace) -> None:
    found = wrapped_keys(read_members(options.config))
    with token_of_machine() as token:
        for one in found:
            token.unwrapped(one)
            print(line_of(one))
    print(f"{len(found)} keys are those of their check values")


def uses(options: argparse.Namespace) -> None:
    records: Counter[int] = Counter()
    last_of: dict[tuple[str, str], int] = {}
    journals = shards_of_files(options.journal).journals
    if not journals:
        raise Refusal(f"there are no journals {options.journal}")
    for shard in journals:
        for line in records_of(journal_path(options.journal, shard)):
            record = record_of(line)
            if isinstance(record, Decided):
                records[record.request.dki] += 1
                last_of[record.card] = record.request.dki
    cards = Counter(last_of.values())
    for dki in sorted(records):
        print(f"dki {dki}: {records[dki]} records, the last one of {cards[dki]} cards")


def line_of(one: WrappedKey) -> str:
    return f"{one.dki} {one.use.value} {one.use.suite.value} {one.check_value}"


def name_of(options: argparse.Namespace) -> str:
    return f"dki {options.dki} {options.use}"


def checked(components: Sequence[Component], suite: Suite) -> Checked:
    """Returns the custodians with the check values that they confirmed."""
    return tuple((component.custodian, component.check_value(suite)) for component in components)


def note(options: argparse.Namespace, ceremony: Ceremony) -> None:
    if options.log:
        CeremonyLog(options.log, time.time).append(ceremony)


def read_members(path: str) -> Json:
    members = read_configuration(path).members
    if not members:
        raise Refusal(f"{path} is no JSON object: `./issuer check --config {path}` says where")
    return members


def parser() -> argparse.ArgumentParser:
    found = argparse.ArgumentParser(prog=NAME, usage=__doc__)
    found.set_defaults(log=None, use="", dki=0)
    commands = found.add_subparsers(required=True)
    of_begin = commands.add_parser("begin")
    of_begin.add_argument("--officer-pin", required=True)
    of_begin.set_defaults(does=begin)
    of_check = commands.add_parser("check")
    of_check.add_argument("--config", required=True)
    of_check.set_defaults(does=check)
    of_uses = commands.add_parser("uses")
    of_uses.add_argument("--journal", required=True)
    of_uses.set_defaults(does=uses)
    for name, does in (("join", join), ("import", import_block), ("export", export_block)):
        one = commands.add_parser(name)
        one.set_defaults(does=does, what=name)
        one.add_argument("--dki", type=int, required=True)
        one.add_argument("--use", choices=[use.value for use in Use], required=True)
        one.add_argument("--components", type=int, default=FEWEST)
        one.add_argument("--components-from", type=int)
        one.add_argument("--yes", action="store_true")
        one.add_argument("--log")
        if name == "export":
            one.add_argument("--from", dest="of", required=True)
            one.add_argument("--version", choices=("B", "D"), default="D")
        else:
            one.add_argument("--into", required=True)
            one.add_argument("--option", choices=("A", "B"))
        if name == "import":
            one.add_argument("--block", required=True)
            one.add_argument("--version-c", action="store_true")
        if name == "join":
            one.add_argument("--set-parity", action="store_true")
    return found


def main(words: Sequence[str]) -> int:
    options = parser().parse_args(words)
    os.umask(0o077)
    try:
        options.does(options)
    except (Refusal, BadKey) as refusal:
        tell(NAME, str(refusal))
        if options.use:
            cipher = Use(options.use).suite.value
            note(options, Ceremony(options.what, name_of(options), cipher, refused=str(refusal)))
        return Status.REFUSED
    except OSError as fault:
        tell(NAME, f"{fault.filename or 'the token'}: {fault.strerror}")
        return Status.PASSES
    return Status.OK
