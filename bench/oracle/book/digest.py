"""BLAKE3 by its specification, default mode, of any length."""
import functools
import struct

MASK = 2 ** 32 - 1
START = (0x6A09E667, 0xBB67AE85, 0x3C6EF372, 0xA54FF53A, 0x510E527F, 0x9B05688C, 0x1F83D9AB, 0x5BE0CD19)
ORDER = (2, 6, 3, 10, 7, 0, 4, 13, 1, 11, 12, 5, 9, 14, 15, 8)
MIXES = ((0, 4, 8, 12), (1, 5, 9, 13), (2, 6, 10, 14), (3, 7, 11, 15), (0, 5, 10, 15), (1, 6, 11, 12), (2, 7, 8, 13), (3, 4, 9, 14))
CHUNK_START, CHUNK_END, PARENT, ROOT = 1, 2, 4, 8
CHUNK, BLOCK, ROUNDS = 1024, 64, 7


def right(x, n):
    return (x >> n | x << 32 - n) & MASK


def mix(v, a, b, c, d, x, y):
    v[a] = v[a] + v[b] + x & MASK
    v[d] = right(v[d] ^ v[a], 16)
    v[c] = v[c] + v[d] & MASK
    v[b] = right(v[b] ^ v[c], 12)
    v[a] = v[a] + v[b] + y & MASK
    v[d] = right(v[d] ^ v[a], 8)
    v[c] = v[c] + v[d] & MASK
    v[b] = right(v[b] ^ v[c], 7)


def compressed(chained, words, counter, length, flags):
    v = [*chained, *START[:4], counter & MASK, counter >> 32, length, flags]
    for _ in range(ROUNDS):
        for i, ends in enumerate(MIXES):
            mix(v, *ends, words[2 * i], words[2 * i + 1])
        words = [words[k] for k in ORDER]
    return [x ^ y for x, y in zip(v[:8], v[8:])]


def chunk(data, number, root):
    chained = START
    starts = range(0, max(len(data), 1), BLOCK)
    for at in starts:
        block = data[at:at + BLOCK]
        last = at == starts[-1]
        flags = CHUNK_START * (at == 0) | CHUNK_END * last | root * last
        chained = compressed(chained, struct.unpack('<16I', block.ljust(BLOCK, b'\0')), number, len(block), flags)
    return chained


def tree(data, number, root):
    if len(data) <= CHUNK:
        return chunk(data, number, root)
    half = CHUNK
    while 2 * half < len(data):
        half *= 2
    left, rest = tree(data[:half], number, 0), tree(data[half:], number + half // CHUNK, 0)
    return compressed(START, left + rest, 0, BLOCK, PARENT | root)


@functools.cache
def digest(data):
    return struct.pack('<8I', *tree(data, 0, ROOT))


def number_of(data):
    return int.from_bytes(digest(data)[:8], 'little')
