"""AES-128 (FIPS 197), and CMAC with it (NIST SP 800-38B).

A state is four columns, each a number of 32 bits with row 0 highest. A round's substitution, shift of rows and mixing
of columns is one lookup for each byte: the column that this byte alone adds.
"""
from functools import lru_cache

from oracle.ciphers import xor

BLOCK = 16
ROUNDS = 10
# FIPS 197, 4.2: the products are those of polynomials modulo x^8 + x^4 + x^3 + x + 1.
MODULUS = 0x11B
# SP 800-38B, 5.3: what the last byte of a block gets if a bit leaves the block on the left.
CARRIED = 0x87


def twice(byte: int) -> int:
    """FIPS 197, 4.2.1: the product with x."""
    return byte << 1 ^ (MODULUS if byte & 0x80 else 0)


def product(one: int, other: int) -> int:
    result = 0
    while other:
        result ^= one if other & 1 else 0
        one = twice(one)
        other = other >> 1
    return result


def inverses() -> list[int]:
    """The inverse of each byte, 0 for 0. The powers of 3 are all bytes but 0: that of n has the inverse of 255 - n."""
    powers = [1]
    for _ in range(254):
        powers.append(product(powers[-1], 3))
    found = [0] * 256
    for number, power in enumerate(powers):
        found[power] = powers[-number]
    return found


def substituted(inverse: int) -> int:
    """FIPS 197, 5.1.1: the affine transformation of a byte's inverse."""
    turned = [inverse << count | inverse >> (8 - count) for count in range(5)]
    return (turned[0] ^ turned[1] ^ turned[2] ^ turned[3] ^ turned[4] ^ 0x63) & 0xFF


def rotated(word: int, count: int) -> int:
    """A word rotated right by so many bytes."""
    return (word >> 8 * count | word << 8 * (4 - count)) & 0xFFFFFFFF


BOX = bytes(map(substituted, inverses()))
ROW_0 = [twice(byte) << 24 | byte << 16 | byte << 8 | twice(byte) ^ byte for byte in BOX]
ROW_1, ROW_2, ROW_3 = ([rotated(word, row) for word in ROW_0] for row in (1, 2, 3))


def box_word(word: int) -> int:
    return int.from_bytes(word.to_bytes(4, "big").translate(BOX), "big")


@lru_cache(maxsize=1 << 16)
def schedule(key: bytes) -> list[list[int]]:
    """FIPS 197, 5.2: the eleven round keys, each four words."""
    words = [int.from_bytes(key[at : at + 4], "big") for at in range(0, BLOCK, 4)]
    constant = 1
    for number in range(4, 4 * (ROUNDS + 1)):
        word = words[-1]
        if number % 4 == 0:
            word = box_word(rotated(word, 3)) ^ constant << 24
            constant = twice(constant)
        words.append(words[-4] ^ word)
    return [words[at : at + 4] for at in range(0, len(words), 4)]


def aes_encipher(key: bytes, block: bytes) -> bytes:
    """FIPS 197, 5.1."""
    first, *middle, last = schedule(key)
    a, b, c, d = (int.from_bytes(block[4 * at : 4 * at + 4], "big") ^ word for at, word in enumerate(first))
    for one, two, three, four in middle:
        a, b, c, d = (
            ROW_0[a >> 24] ^ ROW_1[b >> 16 & 255] ^ ROW_2[c >> 8 & 255] ^ ROW_3[d & 255] ^ one,
            ROW_0[b >> 24] ^ ROW_1[c >> 16 & 255] ^ ROW_2[d >> 8 & 255] ^ ROW_3[a & 255] ^ two,
            ROW_0[c >> 24] ^ ROW_1[d >> 16 & 255] ^ ROW_2[a >> 8 & 255] ^ ROW_3[b & 255] ^ three,
            ROW_0[d >> 24] ^ ROW_1[a >> 16 & 255] ^ ROW_2[b >> 8 & 255] ^ ROW_3[c & 255] ^ four,
        )
    columns = (a, b, c, d), (b, c, d, a), (c, d, a, b), (d, a, b, c)
    shifted = (w & 0xFF000000 | x & 0xFF0000 | y & 0xFF00 | z & 0xFF for w, x, y, z in columns)
    return b"".join((box_word(word) ^ round_key).to_bytes(4, "big") for word, round_key in zip(shifted, last))


def doubled(block: bytes) -> bytes:
    """SP 800-38B, 6.1: the block shifted left by one bit."""
    shifted = int.from_bytes(block, "big") << 1
    return (shifted & (1 << 128) - 1 ^ (CARRIED if shifted >> 128 else 0)).to_bytes(BLOCK, "big")


@lru_cache(maxsize=1 << 16)
def subkeys(key: bytes) -> tuple[bytes, bytes]:
    """SP 800-38B, 6.1: K1 for a whole last block, K2 for a padded one."""
    first = doubled(aes_encipher(key, bytes(BLOCK)))
    return first, doubled(first)


def cmac(key: bytes, text: bytes) -> bytes:
    """SP 800-38B, 6.2, all 16 bytes."""
    for_whole, for_padded = subkeys(key)
    is_whole = text and len(text) % BLOCK == 0
    if not is_whole:
        text += b"\x80" + bytes(-(len(text) + 1) % BLOCK)
    text = text[:-BLOCK] + xor(text[-BLOCK:], for_whole if is_whole else for_padded)
    chain = bytes(BLOCK)
    for at in range(0, len(text), BLOCK):
        chain = aes_encipher(key, xor(chain, text[at : at + BLOCK]))
    return chain
