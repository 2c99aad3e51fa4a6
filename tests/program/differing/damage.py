"""Texts with something changed: bytes, the text of a journal, a feed line."""
import random

OTHER_SHARDS = (b"0", b"1", b"2", b"3", b"00", b"", b"+1", b"18446744073709551616")
FAR_INDICES = (b"", b"9223372036854775807", b"9223372036854775808")
DIGITS = b"0123456789abcdef f"


def flipped(rng: random.Random, data: bytes) -> bytes:
    """The bytes with one bit changed."""
    at = rng.randrange(len(data))
    return data[:at] + bytes([data[at] ^ 1 << rng.randrange(8)]) + data[at + 1 :]


def with_another_digit(rng: random.Random, line: bytes) -> bytes:
    place = rng.randrange(len(line))
    return line[:place] + rng.choice(DIGITS).to_bytes(1, "big") + line[place + 1 :]


def damaged(rng: random.Random, text: bytes) -> bytes:
    """A journal's text with something changed."""
    lines = text.split(b"\n")[:-1]
    at, other = rng.randrange(len(lines)), rng.randrange(len(lines))
    line = lines[at]
    match rng.randrange(8):
        case 0:
            lines[at], lines[other] = lines[other], line
        case 1:
            lines.insert(at, lines[other])
        case 2:
            del lines[at]
        case 3:
            lines[at] = flipped(rng, line).replace(b"\n", b" ")
        case 4:
            lines[at] = with_another_digit(rng, line)
        case 5:
            lines[at] = rng.choice([line.upper(), line + b" ", line + b"00", line[:-2], b"", b" " + line])
        case 6:
            return text[: rng.randrange(len(text))]
        case _:
            noise = rng.randbytes(700).replace(b"\n", b"")
            return text + rng.choice([b"s", noise, b"x" * 600 + b"\n", lines[other]])
    return b"\n".join(lines) + b"\n"


def other_index(rng: random.Random, index: bytes) -> bytes:
    near = b"%d" % (int(index) + rng.choice([-2, -1, 1, 2]))
    return rng.choice([near, b"0" + index, *FAR_INDICES])


def other_record(rng: random.Random, record: bytes) -> bytes:
    """The record of a feed line, its newline included, with an end, a case or a beginning that is wrong."""
    text = record[:-1]
    return rng.choice([text + b" \n", text + b"00\n", text[:-1] + b"\n", record.upper(), b"\n", b"\0" + record])


def other_line(rng: random.Random, line: bytes) -> bytes:
    """No feed line, or one with spaces that it doesn't have."""
    shard, index, record = line.split(b" ", 2)
    spaced = shard + b"  " + index + b" " + record
    return rng.choice([b"\n", b"\r\n", b" " + line, b"x" * 5_000 + b"\n", spaced])


def damaged_line(rng: random.Random, line: bytes) -> bytes:
    """A feed line with something changed: its shard, its index, a space, its record, or its length."""
    shard, index, record = line.split(b" ", 2)
    match rng.randrange(9):
        case 0:
            shard = rng.choice(OTHER_SHARDS)
        case 1:
            index = other_index(rng, index)
        case 2:
            record = other_record(rng, record)
        case 3:
            record = flipped(rng, record[:-1]).replace(b"\n", b" ") + b"\n"
        case 4:
            record = b"x" * (520 - len(shard) - len(index) + rng.randrange(4)) + b"\n"
        case 5:
            return flipped(rng, line[:-1]).replace(b"\n", b" ") + b"\n"
        case 6:
            return line[: rng.randrange(len(line))] + b"\n"
        case 7:
            return line[: rng.randrange(len(line))]
        case _:
            return other_line(rng, line)
    return b" ".join([shard, index, record])
