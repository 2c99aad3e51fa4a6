"""DES (FIPS 46-3), triple DES with two keys, and the MAC of ISO/IEC 9797-1, algorithm 3.

Bits are numbered from 1, the leftmost, as in the standard. Inside, each half of a block is kept as its expansion by E,
48 bits: E only copies bits, so E(a xor b) is E(a) xor E(b), and the tables of the boxes can hold outputs that are
permuted by P and expanded already.
"""
from collections.abc import Callable
from functools import lru_cache

# The sixteen round keys of 48 bits.
Schedule = tuple[int, ...]

# FIPS 46-3, the permutations and selections of the enciphering computation and of the key schedule.
IP = [first - 8 * step for first in (58, 60, 62, 64, 57, 59, 61, 63) for step in range(8)]
E = [(first + step - 1) % 32 + 1 for first in range(0, 32, 4) for step in range(6)]
P = [
    16,
    7,
    20,
    21,
    29,
    12,
    28,
    17,
    1,
    15,
    23,
    26,
    5,
    18,
    31,
    10,
    2,
    8,
    24,
    14,
    32,
    27,
    3,
    9,
    19,
    13,
    30,
    6,
    22,
    11,
    4,
    25,
]
PC1_LEFT = [57, 49, 41, 33, 25, 17, 9, 1, 58, 50, 42, 34, 26, 18, 10, 2, 59, 51, 43, 35, 27, 19, 11, 3, 60, 52, 44, 36]
PC1_RIGHT = [63, 55, 47, 39, 31, 23, 15, 7, 62, 54, 46, 38, 30, 22, 14, 6, 61, 53, 45, 37, 29, 21, 13, 5, 28, 20, 12, 4]
PC2 = [14, 17, 11, 24, 1, 5, 3, 28, 15, 6, 21, 10, 23, 19, 12, 4, 26, 8, 16, 7, 27, 20, 13, 2]
PC2 += [41, 52, 31, 37, 47, 55, 30, 40, 51, 45, 33, 48, 44, 49, 39, 56, 34, 53, 46, 42, 50, 36, 29, 32]
ROTATIONS = [1, 1, 2, 2, 2, 2, 2, 2, 1, 2, 2, 2, 2, 2, 2, 1]

# FIPS 46-3, the boxes S1 to S8: four rows of sixteen outputs, one hexadecimal digit each.
BOXES = [
    "e4d12fb83a6c5907 0f74e2d1a6cb9538 41e8d62bfc973a50 fc8249175b3ea06d",
    "f18e6b34972dc05a 3d47f28ec01a69b5 0e7ba4d158c6932f d8a13f42b67c05e9",
    "a09e63f51dc7b428 d709346a285ecbf1 d6498f30b12c5ae7 1ad069874fe3b52c",
    "7de3069a1285bc4f d8b56f03472c1ae9 a690cb7df13e5284 3f06a1d8945bc72e",
    "2c417ab6853fd0e9 eb2c47d150fa3986 421bad78f9c5630e b8c71e2d6f09a453",
    "c1af92680d34e75b af427c9561de0b38 9ef528c3704a1db6 432c95fabe17608d",
    "4b2ef08d3c975a61 d0b7491ae35c2f86 14bdc37eaf680592 6bd814a7950fe23c",
    "d2846fb1a93e50c7 1fd8a374c56b0e92 7b419ce206adf358 21e74a8dfc90356b",
]


def permute(value: int, width: int, table: list[int]) -> int:
    """The bits of a value of this width that the table selects, in its order."""
    result = 0
    for position in table:
        result = result << 1 | value >> (width - position) & 1
    return result


def tables_of(function: Callable[[int], int], width: int, step: int) -> list[list[int]]:
    """Tables of a function that is linear over xor.

    There is one for each group of `step` bits of its argument, from the left.
    """
    tables = []
    for shift in range(width - step, -1, -step):
        table = [0]
        for bit in range(step):
            one = function(1 << (shift + bit))
            table += [value ^ one for value in table]
        tables.append(table)
    return tables


def open_block(block: int) -> int:
    """Both halves of a block after the initial permutation, expanded, as one number of 96 bits."""
    halves = permute(block, 64, IP)
    return permute(halves >> 32, 32, E) << 48 | permute(halves & 0xFFFFFFFF, 32, E)


def close_half(expanded: int) -> int:
    """The 32 bits of which this is the expansion: the inner four of each six."""
    result = 0
    for shift in range(43, 0, -6):
        result = result << 4 | expanded >> shift & 15
    return result


def close_block(halves: int) -> int:
    """The block that the inverse of the initial permutation makes of two expanded halves."""
    inverse = [IP.index(position) + 1 for position in range(1, 65)]
    return permute(close_half(halves >> 48) << 32 | close_half(halves & (1 << 48) - 1), 64, inverse)


def box_output(box: int, six: int) -> int:
    """What a box adds to the other half, expanded: the outer two of six bits are the row, the inner four the column."""
    row = six >> 4 & 2 | six & 1
    column = six >> 1 & 15
    output = int(BOXES[box].split()[row][column], 16) << (28 - 4 * box)
    return permute(permute(output, 32, P), 32, E)


def pair_table(box: int) -> list[int]:
    """What two neighbouring boxes add, for twelve bits.

    Equal sums are one object, so that the table stays in a cache.
    """
    first, second = ([box_output(number, six) for six in range(64)] for number in (box, box + 1))
    sums: dict[int, int] = {}
    return [sums.setdefault(left ^ right, left ^ right) for left in first for right in second]


def round_keys_of(key: int) -> int:
    """The sixteen round keys, 48 bits each, as one number, the first of them highest."""
    left = permute(key, 64, PC1_LEFT)
    right = permute(key, 64, PC1_RIGHT)
    result = 0
    for count in ROTATIONS:
        left = (left << count | left >> (28 - count)) & 0xFFFFFFF
        right = (right << count | right >> (28 - count)) & 0xFFFFFFF
        result = result << 48 | permute(left << 28 | right, 56, PC2)
    return result


BOXES_12, BOXES_34, BOXES_56, BOXES_78 = (pair_table(box) for box in (0, 2, 4, 6))
OPEN = tables_of(open_block, 64, 8)
CLOSE = tables_of(close_block, 96, 12)
SCHEDULE = tables_of(round_keys_of, 64, 8)


def by_tables(tables: list[list[int]], value: int, width: int, step: int) -> int:
    """A linear function's value, by its tables."""
    result = 0
    mask = (1 << step) - 1
    for table in tables:
        width -= step
        result ^= table[value >> width & mask]
    return result


@lru_cache(maxsize=1 << 16)
def schedule(key: bytes) -> Schedule:
    """The round keys of an 8-byte key, in the order of enciphering."""
    keys = by_tables(SCHEDULE, int.from_bytes(key, "big"), 64, 8)
    return tuple(keys >> shift & 0xFFFFFFFFFFFF for shift in range(720, -1, -48))


def rounds(left: int, right: int, keys: Schedule) -> tuple[int, int]:
    """Sixteen rounds and the exchange of the halves."""
    for first, second in zip(keys[::2], keys[1::2]):
        chosen = right ^ first
        left ^= (
            BOXES_12[chosen >> 36]
            ^ BOXES_34[chosen >> 24 & 4095]
            ^ BOXES_56[chosen >> 12 & 4095]
            ^ BOXES_78[chosen & 4095]
        )
        chosen = left ^ second
        right ^= (
            BOXES_12[chosen >> 36]
            ^ BOXES_34[chosen >> 24 & 4095]
            ^ BOXES_56[chosen >> 12 & 4095]
            ^ BOXES_78[chosen & 4095]
        )
    return right, left


def halves_of(block: bytes) -> tuple[int, int]:
    """A block of 8 bytes after the initial permutation."""
    halves = by_tables(OPEN, int.from_bytes(block, "big"), 64, 8)
    return halves >> 48, halves & 0xFFFFFFFFFFFF


def block_of(left: int, right: int) -> bytes:
    """The 8 bytes that the last permutation makes of two halves."""
    return by_tables(CLOSE, left << 48 | right, 96, 12).to_bytes(8, "big")


def through(block: bytes, *schedules: Schedule) -> bytes:
    """A block sent through DES once for each list of round keys.

    Between two of them the last permutation of the one and the initial one of the next cancel.
    """
    halves = halves_of(block)
    for keys in schedules:
        halves = rounds(*halves, keys)
    return block_of(*halves)


def des_encipher(key: bytes, block: bytes) -> bytes:
    """FIPS 46-3. The least significant bit of each byte of the key counts for nothing."""
    return through(block, schedule(key))


def des_decipher(key: bytes, block: bytes) -> bytes:
    return through(block, schedule(key)[::-1])


def tdes_encipher(key: bytes, block: bytes) -> bytes:
    """Triple DES with two keys (EMV 4.3 Book 2, B1.1): encipher, decipher, encipher."""
    left = schedule(key[:8])
    right = schedule(key[8:])
    return through(block, left, right[::-1], left)


def tdes_decipher(key: bytes, block: bytes) -> bytes:
    left = schedule(key[:8])
    right = schedule(key[8:])
    return through(block, left[::-1], right, left[::-1])


def padded(text: bytes) -> bytes:
    """ISO/IEC 9797-1, padding method 2: 80, then 00 up to whole blocks."""
    text += b"\x80"
    return text + bytes(-len(text) % 8)


def mac(key: bytes, text: bytes) -> bytes:
    """The whole MAC of 8 bytes, ISO/IEC 9797-1, algorithm 3 (EMV 4.3 Book 2, A1.2.1).

    The chain is kept after the initial permutation, which is linear.
    """
    first = schedule(key[:8])
    last = schedule(key[8:])
    text = padded(text)
    left = right = 0
    for at in range(0, len(text), 8):
        more_left, more_right = halves_of(text[at : at + 8])
        left, right = rounds(left ^ more_left, right ^ more_right, first)
    return block_of(*rounds(*rounds(left, right, last[::-1]), first))


def cbc_encipher(key: bytes, text: bytes) -> bytes:
    """The padded text enciphered by triple DES in CBC mode from a block of zeros (EMV 4.3 Book 2, A1.1)."""
    result = chain = bytes(8)
    for at in range(0, len(padded(text)), 8):
        chain = tdes_encipher(key, xor(chain, padded(text)[at : at + 8]))
        result += chain
    return result[8:]


def cbc_decipher(key: bytes, text: bytes) -> bytes | None:
    """The text that was padded and enciphered to this one, or None where there is none."""
    blocks = [text[at : at + 8] for at in range(0, len(text), 8)]
    if not blocks or len(blocks[-1]) != 8:
        return None
    plain = b"".join(xor(tdes_decipher(key, block), chain) for chain, block in zip([bytes(8), *blocks], blocks))
    message = plain.rstrip(b"\0").removesuffix(b"\x80")
    return message if padded(message) == plain else None


def xor(one: bytes, other: bytes) -> bytes:
    return bytes(a ^ b for a, b in zip(one, other, strict=True))
