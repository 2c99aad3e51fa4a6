"""What a dialect says of advices, reversals and other messages that a gateway acknowledges: its member `advices`."""

from collections.abc import Callable, Collection
from typing import Any, Mapping, NamedTuple, Optional, Tuple

from issuer_host.gateway import mapping

# Never written to a spool: track data, a PIN block, keys, and MACs, which are of no use there.
NEVER = {
    35: "track data",
    36: "track data",
    45: "track data",
    52: "a PIN block",
    53: "data of keys",
    64: "a MAC",
    96: "key data",
    128: "a MAC",
}
# By these a request is known that was reversed.
KNOWN_BY = (mapping.PAN, mapping.STAN, mapping.RRN)
MEMBERS = {"answers", "not stored", "elements"}


class AdviceRules(NamedTuple):
    """`answers` has element 39 by type, of a type and of its repeat alike. `elements` are those that are stored.

    What can't be stored gets `not_stored`, or no response at all.
    """

    answers: Mapping[str, str] = {}
    not_stored: Optional[str] = None
    elements: Tuple[int, ...] = ()

    def answer_to(self, kind: str) -> Optional[str]:
        """Element 39 of the response to a message that was stored; None if its type isn't acknowledged."""
        return self.answers.get(mapping.first_type(kind))


def rules_of(found: Any, version: str, code_size: int, elements: Collection[int]) -> AdviceRules:
    """The rules of a dialect's member. A ValueError says what is wrong."""
    if found == {}:
        return AdviceRules()
    if not isinstance(found, dict) or set(found) != MEMBERS or not isinstance(found["answers"], dict):
        raise ValueError("`advices` has the members `answers`, codes by type, `not stored` and `elements`")
    is_code: Callable[[object], bool] = lambda it: isinstance(it, str) and len(it) == code_size and it.isalnum()
    for kind, code in found["answers"].items():
        if not is_acknowledged(kind, version):
            raise ValueError(
                f"`answers` of `advices` has the type {kind!r}, and takes advices and reversals of its edition, as"
                f" {version}120, {version}400 or {version}420: no requests, no repeats and no responses"
            )
        if not is_code(code):
            raise ValueError(f"`answers` of `advices` has {code!r} for {kind}, and a code has {code_size} places")
    not_stored = found["not stored"]
    if not_stored is not None and not is_code(not_stored):
        raise ValueError(f"`not stored` of `advices` is {not_stored!r}: a code of {code_size} places, or null")
    return AdviceRules(dict(found["answers"]), not_stored, elements_of(found["elements"], elements))


def is_acknowledged(kind: str, version: str) -> bool:
    """Whether messages of a type may be acknowledged: nobody decides them, and it is no repeat's type."""
    is_type = len(kind) == 4 and kind.isdecimal() and kind[0] == version
    return is_type and mapping.what_to_do(kind) == mapping.DECLINE and not mapping.is_repeat(kind)


def elements_of(found: Any, elements: Collection[int]) -> Tuple[int, ...]:
    if not isinstance(found, list) or not all(type(it) is int for it in found):
        raise ValueError("`elements` of `advices` is no list of numbers of elements")
    for number in found:
        if number in NEVER:
            raise ValueError(f"`elements` of `advices` has the element {number}: {NEVER[number]} is never stored")
        if number not in elements:
            raise ValueError(f"`elements` of `advices` has the element {number}, and the dialect lacks it")
    lacks = [it for it in KNOWN_BY if it in elements and it not in found]
    if lacks:
        raise ValueError(f"`elements` of `advices` lacks element {lacks[0]}, by which a reversed request is known")
    return tuple(sorted(set(found)))
