"""An answer, or an outcome without one, as a response."""

from typing import NamedTuple, Optional

from issuer_host.facts import answers
from issuer_host.facts.approval_codes import approval_code
from issuer_host.gateway import mapping
from issuer_host.gateway.dialect import Dialect
from issuer_host.gateway.message import Message, Value

ANSWER_WORDS = 6


class Decision(NamedTuple):
    """What a `fresh` or `kept` answer has."""

    shard: int
    place: int
    approves: bool
    response_code: bytes
    data: bytes


def decision_of(answer: str) -> Optional[Decision]:
    """The decision of an answer, or None if it is a refusal."""
    words = answers.words_of(answer)
    if len(words) != ANSWER_WORDS or words[0] not in answers.DECISIONS:
        return None
    _, shard, place, approves, code, data = words
    return Decision(int(shard), int(place), approves == "yes", bytes.fromhex(code), bytes.fromhex(data))


def response_to(dialect: Dialect, request: Message, code: str, more: Optional[dict[int, Value]] = None) -> Message:
    """A response with this code: what it echoes of its request, and more."""
    elements = {it: request.elements[it] for it in dialect.echo if it in request.elements}
    own: dict[int, Value] = {mapping.CODE: dialect.codes.get(code, code), **(more or {})}
    written = {it: data for it, data in request.written.items() if it not in own}
    return Message(mapping.response_type(request.kind), elements | own, written, request.header)


def settled(dialect: Dialect, request: Message, outcome: mapping.Outcome) -> Message:
    return response_to(dialect, request, outcome.code[dialect.edition])


def malfunction(dialect: Dialect, response: Message) -> Message:
    """In place of a response that can't be written: what it echoes as it came, and the code of a malfunction."""
    echoed: dict[int, Value] = {it: response.elements[it] for it in response.written}
    code = mapping.MALFUNCTION.code[dialect.edition]
    own: dict[int, Value] = {**echoed, mapping.CODE: dialect.codes.get(code, code)}
    return Message(response.kind, own, response.written, response.header)


def answered(dialect: Dialect, request: Message, answer: str) -> Message:
    """The response to a request that a host answered."""
    decision = decision_of(answer)
    if decision is None:
        return settled(dialect, request, refused(answer))
    code = mapping.code_of(decision.response_code, decision.approves, dialect.edition)
    more: dict[int, Value] = {mapping.CHIP: decision.data}
    if decision.approves:
        more[mapping.APPROVAL] = approval_code(decision.shard, decision.place)
    return response_to(dialect, request, code, more)


def refused(answer: str) -> mapping.Outcome:
    """What an answer comes to that is no decision."""
    refusal = mapping.refusal_of(answers.kind_of(answer).refusal)
    return mapping.MALFUNCTION if refusal is None else mapping.REFUSALS.get(refusal, mapping.MALFUNCTION)


def is_accepted(dialect: Dialect, request: Message) -> bool:
    """Whether a network message is accepted: sign-on, sign-off, an echo, or one that doesn't say."""
    code = request.elements.get(dialect.network.element)
    return code is None or code in dialect.network.accepted


def network_response(dialect: Dialect, request: Message) -> Message:
    outcome = mapping.ACCEPTED if is_accepted(dialect, request) else mapping.UNSUPPORTED
    return settled(dialect, request, outcome)
