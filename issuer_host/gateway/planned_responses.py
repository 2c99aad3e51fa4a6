"""The response to a request that a plan has read, in bytes: what is echoed stays as it came.

A response that isn't made here is made by `responses`.
"""

import functools
from binascii import unhexlify
from collections.abc import Mapping, Sequence
from typing import NamedTuple, Optional

from issuer_host.facts import answers
from issuer_host.facts.approval_codes import approval_code
from issuer_host.gateway import mapping, responses
from issuer_host.gateway.elements import length_writer_of
from issuer_host.gateway.message import Codec, Unwritable, bitmap_of, written_headers
from issuer_host.gateway.planned_elements import Cut

# So many codes in element 39 are kept, and so many lengths of chip data.
CODES, LENGTHS = 256, 1024
# The elements that a response has of its own, in the order of a message.
OWN = (mapping.APPROVAL, mapping.CODE, mapping.CHIP)
APPROVED, DECLINED, REFUSED = OWN, OWN[1:], OWN[1:2]


class Code(NamedTuple):
    """An element 39: its text, and how it is written."""

    text: str
    written: bytes


class Shape(NamedTuple):
    """A response with some elements of its own: its type and bitmap, and what follows.

    Each part is one of `OWN`, by its index, or where bytes of the request are.
    """

    head: bytes
    parts: Sequence["tuple[int, Optional[Cut]]"]


class Written(NamedTuple):
    """A response's bytes, and its element 39."""

    data: bytes
    code: str


class ResponseWriter:
    """What the responses of a dialect have of their own, as it is written."""

    def __init__(self, codec: Codec) -> None:
        self.codec, self.dialect = codec, codec.dialect
        chip, approval = self.dialect.formats[mapping.CHIP], self.dialect.formats[mapping.APPROVAL]
        self.chip_form, self.characters = chip, approval.characters
        self.write_chip_length = None if chip.length is None else length_writer_of(chip.length)
        # What stands before an approval code, if its characters follow as they are.
        self.approval_head: Optional[bytes] = None
        if approval.fill is None:
            written = codec.writers[mapping.APPROVAL](NO_CODE)
            self.approval_head = written[: len(written) - len(NO_CODE)]
        self.decided = functools.lru_cache(CODES)(self.code_of_decision)
        self.coded = functools.lru_cache(CODES)(self.write_code)
        self.chip_head = functools.lru_cache(LENGTHS)(self.write_chip_head)

    def code_of_decision(self, response_code: str, approves: bool) -> Optional[Code]:
        """Element 39 of a decision; None if it can't be written."""
        return self.coded(mapping.code_of(bytes.fromhex(response_code), approves, self.dialect.edition))

    def write_code(self, code: str) -> Optional[Code]:
        text = self.dialect.codes.get(code, code)
        try:
            return Code(text, self.codec.write(mapping.CODE, text))
        except Unwritable:
            return None

    def approval(self, shard: int, place: int) -> Optional[bytes]:
        code = approval_code(shard, place)
        return None if self.approval_head is None else self.approval_head + code.encode(self.characters)

    def write_chip_head(self, size: int) -> Optional[bytes]:
        """What stands before chip data of so many bytes; None if they can't be written."""
        form = self.chip_form
        if size > form.size or form.length is None:
            return None
        assert self.write_chip_length is not None
        return self.write_chip_length(size * (2 if form.length.counts_characters else 1))

    def chip(self, text: str) -> Optional[bytes]:
        """Chip data that an answer has in hexadecimal."""
        data, codec = unhexlify(text), self.chip_form.hexadecimal
        head = self.chip_head(len(data))
        if head is None:
            return None
        return head + (data if codec is None else text.upper().encode(codec))


NO_CODE = "000000"


class PlannedResponses:
    """The responses to a type with some elements."""

    def __init__(self, writer: ResponseWriter, kind: str, numbers: Sequence[int], cuts: Mapping[int, Cut]) -> None:
        self.writer, self.kind = writer, mapping.response_type(kind)
        self.numbers, self.cuts = numbers, cuts
        self.shapes = {own: self.shape_of(own) for own in (APPROVED, DECLINED, REFUSED)}

    def shape_of(self, own: Sequence[int]) -> Shape:
        codec = self.writer.codec
        echoed = [it for it in self.numbers if it in codec.echoed and it not in own]
        numbers = tuple(sorted((*echoed, *own)))
        bitmap, hexadecimal = bitmap_of(numbers), codec.dialect.bitmaps
        written = bitmap if hexadecimal is None else bitmap.hex().upper().encode(hexadecimal)
        parts: list[tuple[int, Optional[Cut]]] = []
        for number in numbers:
            cut = self.cuts[number] if number not in own else None
            before = parts[-1][1] if parts else None
            if cut is not None and before is not None and before[2:] == cut[:2]:
                parts[-1] = -1, Cut(before.first, before.begin, cut.last, cut.end)
            else:
                parts.append((-1, cut) if cut is not None else (OWN.index(number), None))
        return Shape(codec.write_kind(self.kind) + written, parts)

    def answered(self, data: bytes, ends: Sequence[int], answer: str) -> Optional[Written]:
        """The response to a request that a host answered; None if no plan makes it."""
        words, writer = answers.words_of(answer), self.writer
        if len(words) != responses.ANSWER_WORDS or words[0] not in answers.DECISIONS:
            code = writer.coded(responses.refused(answer).code[writer.dialect.edition])
            return None if code is None else self.written(data, ends, REFUSED, (b"", code.written, b""), code.text)
        _, shard, place, approves, response_code, chip_text = words
        is_approved = approves == "yes"
        code, chip = writer.decided(response_code, is_approved), writer.chip(chip_text)
        approval = writer.approval(int(shard), int(place)) if is_approved else b""
        if code is None or chip is None or approval is None:
            return None
        own = APPROVED if is_approved else DECLINED
        return self.written(data, ends, own, (approval, code.written, chip), code.text)

    def written(
        self, data: bytes, ends: Sequence[int], own: Sequence[int], values: Sequence[bytes], code: str
    ) -> Written:
        codec, shape = self.writer.codec, self.shapes[tuple(own)]
        found = [shape.head]
        if codec.header_bytes:
            found.insert(0, written_headers(codec.dialect.headers, data[: codec.header_bytes]))
        for number, cut in shape.parts:
            if cut is None:
                found.append(values[number])
            else:
                first, begin, last, end = cut
                found.append(data[ends[first] + begin : ends[last] + end])
        return Written(b"".join(found), code)
