"""The log of messages: a line for each that the gateway answered, by which `deploy/trace` finds a transaction."""

import asyncio
from typing import Any, Optional

from issuer_host.facts import answers
from issuer_host.facts.masks import masked
from issuer_host.facts.partitions import partition_of
from issuer_host.facts.request_lines import Torn, objects_of
from issuer_host.files.audit import Audit
from issuer_host.gateway import mapping
from issuer_host.gateway.advices import pan_of
from issuer_host.gateway.message_handler import Exchange
from issuer_host.gateway.log import NAME
from issuer_host.gateway.message import Message
from issuer_host.gateway.responses import decision_of

# Lines of a moment are written together. So many full files of 64 MiB are kept: some 20 million messages.
FLUSH_SECONDS, FULL_FILES = 0.05, 99
# Of a request: what the log has beside its card, by tag.
FIELDS = {b"\x9f\x36": "atc", b"\x9f\x02": "amount", b"\x5f\x2a": "currency"}
# Of a message: the elements that name it.
NAMES = {"stan": mapping.STAN, "rrn": mapping.RRN, "terminal": mapping.TERMINAL}


class MessageLog:
    """Appends a line for each message."""

    def __init__(self, loop: asyncio.AbstractEventLoop, name: str, partitions: int) -> None:
        self.loop, self.partitions = loop, partitions
        self.audit = Audit(
            name, NAME, later=lambda action: loop.call_later(FLUSH_SECONDS, action), full_files=FULL_FILES
        )

    async def begin(self) -> None:
        """The file is opened with the first line."""

    async def close(self) -> None:
        self.audit.flush()
        self.audit.close()

    def note(self, exchange: Exchange, response: Optional[Message], code: str) -> None:
        """A message was answered with this code in element 39, or got no response."""
        self.audit.note(said_of(exchange, response, code, self.loop.time(), self.partitions))


def said_of(
    exchange: Exchange, response: Optional[Message], code: str, now: float, partitions: int
) -> "dict[str, object]":
    """What the log says of a message."""
    message, line = exchange.message, exchange.line
    found: dict[str, object] = {
        **{"by": NAME, "what": "message", "from": exchange.peer.address, "dialect": exchange.peer.dialect.name},
        "type": message.kind,
    }
    for name, number in NAMES.items():
        value = message.elements.get(number)
        if isinstance(value, str):
            found[name] = value.strip()
    pan = line.pan if line is not None else pan_of(message)
    if pan:
        found["card"] = masked(pan)
    if line is not None:
        found.update(fields_of(line.line))
        found["partition"] = partition_of(pan, partitions) if partitions > 1 else 0
    if exchange.why:
        found["why"] = exchange.why
    if exchange.verdict:
        found["account"] = exchange.verdict
    if exchange.answer is not None:
        found.update(answer_fields(exchange.answer))
    if response is not None and mapping.APPROVAL in response.elements:
        found["approval"] = response.elements[mapping.APPROVAL]
    return {**found, "code": code, "ms": round(1000 * (now - exchange.began), 2)}


def fields_of(line: str) -> dict[str, str]:
    """What the log has of a request's chip data."""
    try:
        objects = objects_of(bytes.fromhex(line.partition(" ")[2]))
        return {FIELDS[tag]: value.hex() for tag, value in objects if tag in FIELDS}
    except Torn:
        return {}


def answer_fields(answer: str) -> dict[str, Any]:
    """What the log has of a host's answer: its record, or the refusal with what the host named."""
    decision = decision_of(answer)
    if decision is not None:
        record = {"shard": decision.shard, "place": decision.place}
        return {"answer": answers.kind_of(answer).word, **record, "approves": decision.approves}
    return {"answer": answer}
