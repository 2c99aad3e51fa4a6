"""The configurations of partitions: a folder with one for each, `0.json`, `1.json` ..

Each has a member `partition` with its number and how many there are, which the program ignores.
"""
import json
import os
from collections.abc import Sequence
from typing import Any, Optional

from issuer_host.configuration.members import CHECK_VALUE, WRAPPED
from issuer_host.facts.masks import name_of_card
from issuer_host.facts.partitions import partition_configuration, partition_of
from issuer_host.facts.refusal import Refusal
from issuer_host.keys.uses import Use

Json = dict[str, Any]

ENDING = ".json"
RESTORE = "restore the folder as deploy/partition wrote it"
# The key for confidentiality: no record depends on it.
FREE_KEY = "smc"
# The members of a key set with digits in either case.
KEYS = ("ac", "smi", "aes_ac", "aes_smi")


def read_json(path: str) -> Json:
    try:
        with open(path, encoding="utf-8") as text:
            found = json.load(text)
    except OSError as fault:
        raise Refusal(f"{path} can't be read: {fault.strerror}") from fault
    except (ValueError, RecursionError) as fault:
        raise Refusal(f"{path} is no JSON: {fault}") from fault
    if not isinstance(found, dict):
        raise Refusal(f"{path} is no JSON object")
    return found


def read_folder(folder: str) -> list[Json]:
    """Returns the configurations of a folder, by partition; none if it has none.

    All have to be there, each under its own number.
    """
    names = [name[: -len(ENDING)] for name in os.listdir(folder) if name.endswith(ENDING)]
    numbers = sorted(int(name) for name in names if name.isdecimal())
    found = [read_json(partition_configuration(folder, number)) for number in numbers]
    for number, configuration in zip(numbers, found):
        check_partition(folder, number, configuration, len(numbers))
    return found


def check_partition(folder: str, number: int, configuration: Json, partitions: int) -> None:
    """Refuses a configuration of another number, or with cards of other partitions."""
    path = partition_configuration(folder, number)
    named = configuration.get("partition")
    if named != {"number": number, "of": partitions} or number >= partitions:
        raise Refusal(f"{path} says that it is {named}, among {partitions} configurations: {RESTORE}")
    pans = [card["pan"] for card in configuration["cards"]]
    strays = [pan for pan in pans if partition_of(pan, partitions) != number]
    if strays:
        raise Refusal(f"{path} has {len(strays)} cards of other partitions: {RESTORE}")


def name_of(card: Json) -> tuple[str, str]:
    return card["pan"], card["psn"]


def is_kept(old: Json, new: Json) -> bool:
    """Whether a key set has all that records depend on, as it was. A key may come to be wrapped, or cease to be."""
    kept = (name for name in KEYS if value_of_member(old, name) is not None)
    return old.get("option") == new.get("option") and all(is_same_key(old, new, name) for name in kept)


def is_same_key(old: Json, new: Json, name: str) -> bool:
    """Whether a key is the same: by its digits if both key sets have it in clear, and else by its check value."""
    was, now = old.get(name), new.get(name)
    if isinstance(was, str) and isinstance(now, str):
        return was.lower() == now.lower()
    return value_of(old, name) == value_of(new, name)


def value_of_member(key_set: Json, name: str) -> Any:
    return key_set.get(name) or key_set.get(WRAPPED, {}).get(name)


def value_of(key_set: Json, name: str) -> Optional[str]:
    """Returns the check value of a key: that beside a wrapped one, or that of a key in clear."""
    wrapped = key_set.get(WRAPPED, {}).get(name)
    if wrapped is not None:
        return str(wrapped[CHECK_VALUE]).upper()
    if name not in key_set:
        return None
    try:
        from issuer_host.keys.master_key import check_value
    except ImportError as fault:
        raise Refusal(f"check values need {fault.name}: apt-get install python3-cryptography") from None
    return check_value(Use(name).suite, bytes.fromhex(key_set[name]))


def check_keys(old: Sequence[Json], new: Sequence[Json]) -> None:
    """Refuses a key set that is gone or changed: the records made with it would be none.

    It may get keys for AES, and `smc` may come, change and go.
    """
    now = {key_set["dki"]: key_set for key_set in new}
    for key_set in old:
        number = key_set["dki"]
        if number not in now:
            raise Refusal(f"the key set with DKI {number} is in use, and is gone: keep it")
        if not is_kept(key_set, now[number]):
            what = "is in use, and has other keys or another option: give new keys another DKI"
            raise Refusal(f"the key set with DKI {number} {what}")


def check_methods(old: Sequence[Json], new: Sequence[Json]) -> None:
    """Refuses a card that is gone or has another method."""
    now = {name_of(card): card for card in new}
    for card in old:
        pan, psn = name_of(card)
        if (pan, psn) not in now:
            what = "is in use, and is gone: keep it in the list, and have its requests declined by its status"
            raise Refusal(f"{name_of_card(pan, psn)} {what}")
        if now[pan, psn]["method"] != card["method"]:
            raise Refusal(f"{name_of_card(pan, psn)} is in use with method {card['method']}, which can't change")
