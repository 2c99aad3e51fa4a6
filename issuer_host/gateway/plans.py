"""Plans: what a type and its bitmaps mean in a dialect, worked out once for all requests that have them.

A plan never says why it refuses. What it doesn't take goes to the plain codec, who decides. So a message that a plan
takes is read as the plain codec reads it, and all others are read by that one.
"""

import functools
from collections.abc import Callable, Sequence
from datetime import date
from typing import Any, Optional, Union, cast

from issuer_host.gateway import mapping, requests, responses
from issuer_host.gateway.dialect import BITMAP_ELEMENTS, Dialect
from issuer_host.gateway.elements import TornElement
from issuer_host.gateway.message import Codec, HAS_SECOND, Message, check_headers
from issuer_host.gateway.planned_elements import ByteSets, Layout, layout_of
from issuer_host.gateway.planned_lines import PlannedLines
from issuer_host.gateway.planned_responses import PlannedResponses, ResponseWriter, Written
from issuer_host.gateway.requests import RequestLine, Settled

# Of a dialect so many types with their bitmaps are known. One that wasn't seen for longest is forgotten.
PLANS = 256
# What a planned message has only once somebody looks at it.
READ_LATE = ("elements", "written")


class PlanningCodec(Codec):
    """Reads and writes the messages of a dialect as `Codec` does, requests by plans."""

    def __init__(self, dialect: Dialect) -> None:
        super().__init__(dialect)
        self.sets = ByteSets(dialect.formats.values())
        self.writer = ResponseWriter(self)
        self.slot_of = functools.lru_cache(PLANS)(functools.partial(Slot, self))
        # Where type and bitmaps end, by the first byte of the bitmap.
        self.bitmap_at = self.header_bytes + len(self.write_kind("0000"))
        width = 8 if dialect.bitmaps is None else 16
        ends = self.bitmap_at + width, self.bitmap_at + 2 * width
        self.ends_of_bitmaps = [ends[begins_second(byte, dialect.bitmaps)] for byte in range(256)]

    def unpack(self, data: bytes) -> Message:
        """The message of a frame, or Unreadable."""
        if len(data) > self.bitmap_at:
            begin = self.ends_of_bitmaps[data[self.bitmap_at]]
            plan = self.slot_of(data[self.header_bytes : begin]).plan()
            found = plan.read(data, begin) if plan is not None else None
            if found is not None:
                return found
        return super().unpack(data)

    def pack(self, message: Message) -> bytes:
        """The bytes of a message; Unwritable if an element isn't of the dialect's format."""
        return message.data if isinstance(message, PlannedResponse) else super().pack(message)


def begins_second(byte: int, bitmaps: Optional[str]) -> bool:
    """Whether a second bitmap follows one that begins with this byte."""
    if bitmaps is None:
        return byte >= HAS_SECOND
    digit = bytes([byte]).decode(bitmaps, errors="replace")
    return digit in "89ABCDEFabcdef"


class Slot:
    """A type with bitmaps, and its plan once they came for the second time."""

    __slots__ = ("codec", "begins", "is_known", "found")

    def __init__(self, codec: PlanningCodec, begins: bytes) -> None:
        self.codec, self.begins = codec, begins
        self.is_known = False
        self.found: Optional[RequestPlan] = None

    def plan(self) -> "Optional[RequestPlan]":
        """The plan; None if they came for the first time, or have none."""
        if self.found is None and self.begins:
            if self.is_known:
                self.found, self.begins = plan_of(self.codec, self.begins), b""
            self.is_known = True
        return self.found


class RequestPlan:
    """What a request's type and bitmaps mean."""

    def __init__(self, codec: PlanningCodec, kind: str, numbers: Sequence[int], layout: Layout) -> None:
        self.codec, self.kind, self.header_bytes = codec, kind, codec.header_bytes
        self.sections = layout.sections
        self.lines = PlannedLines(codec.dialect, layout.cuts, mapping.is_repeat(kind))
        self.responses = PlannedResponses(codec.writer, kind, numbers, layout.cuts)

    def read(self, data: bytes, at: int) -> "Optional[PlannedRequest]":
        """The request whose elements begin at a place; None if the plan doesn't take it."""
        ends, chip = [at], b""
        try:
            if self.header_bytes:
                check_headers(self.codec.dialect.headers, data)
            for width, table, mask, reader, number in self.sections:
                if width:
                    begin, at = at, at + width
                    if int.from_bytes(data[begin:at].translate(table), "big") & mask:
                        return None
                if reader is not None:
                    value, at = reader(data, at)
                    ends.append(at)
                    if number == mapping.CHIP:
                        chip = cast(bytes, value)
        except TornElement:
            return None
        return PlannedRequest(self, data, ends, chip) if at == len(data) else None


def plan_of(codec: PlanningCodec, begins: bytes) -> Optional[RequestPlan]:
    """The plan of a type with its bitmaps; None if they can't be read, aren't of a request, or name other elements."""
    try:
        read, at = codec.read_kind(begins, 0)
        numbers, _ = codec.read_bitmaps(begins, at)
    except TornElement:
        return None
    kind = str(read)
    if kind[0] != codec.version or mapping.what_to_do(kind) != mapping.DECIDE or BITMAP_ELEMENTS[1] in numbers:
        return None
    layout = layout_of(numbers, codec.dialect.formats, codec.sets)
    has_chip = layout is not None and any(it.number == mapping.CHIP for it in layout.sections)
    return RequestPlan(codec, kind, numbers, layout) if layout is not None and has_chip else None


class PlannedRequest(Message):
    """A request that a plan took. Who looks at its elements has them read by the plain codec."""

    def __init__(self, plan: RequestPlan, data: bytes, ends: Sequence[int], chip: bytes) -> None:
        self.kind, self.header = plan.kind, data[: plan.header_bytes]
        self.plan, self.data, self.ends, self.chip = plan, data, ends, chip

    def __getattr__(self, name: str) -> Any:
        if name not in READ_LATE:
            raise AttributeError(name)
        plain = Codec.unpack(self.plan.codec, self.data)
        self.elements, self.written = plain.elements, plain.written
        return self.__dict__[name]


class PlannedResponse(Message):
    """The response to such a request, which is written already."""

    def __init__(self, request: PlannedRequest, answer: str, written: Written) -> None:
        self.kind, self.header = request.plan.responses.kind, request.header
        self.request, self.answer = request, answer
        self.data, self.said = written

    @property
    def code(self) -> str:
        return self.said

    def __getattr__(self, name: str) -> Any:
        if name not in READ_LATE:
            raise AttributeError(name)
        plain = responses.answered(self.request.plan.codec.dialect, self.request, self.answer)
        self.elements, self.written = plain.elements, plain.written
        return self.__dict__[name]


# What is made of them


def line_of(dialect: Dialect, message: Message, today: Callable[[], date]) -> Union[RequestLine, Settled]:
    """The request line of a message, or what it comes to without one."""
    if isinstance(message, PlannedRequest):
        line = message.plan.lines.line_of(message.data, message.ends, message.chip)
        if line is not None:
            return line
    return requests.line_of(dialect, message, today())


def answered(dialect: Dialect, message: Message, answer: str) -> Message:
    """The response to a request that a host answered."""
    if isinstance(message, PlannedRequest):
        written = message.plan.responses.answered(message.data, message.ends, answer)
        if written is not None:
            return PlannedResponse(message, answer, written)
    return responses.answered(dialect, message, answer)
