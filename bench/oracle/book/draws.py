"""ChaCha8 by Bernstein's paper, document 01's draw rules, and seconds."""
import struct
from fractions import Fraction

from digest import MASK
from wrong import wrong

ROUNDS = ((0, 4, 8, 12), (1, 5, 9, 13), (2, 6, 10, 14), (3, 7, 11, 15), (0, 5, 10, 15), (1, 6, 11, 12), (2, 7, 8, 13), (3, 4, 9, 14))
SECOND = 10 ** 9


def left(x, n):
    return (x << n | x >> 32 - n) & MASK


def block(key, number):
    first = [*struct.unpack('<4I', b'expand 32-byte k'), *struct.unpack('<8I', key), number & MASK, number >> 32, 0, 0]
    w = first[:]
    for _ in range(4):
        for a, b, c, d in ROUNDS:
            for x, y, z, n in ((a, b, d, 16), (c, d, b, 12), (a, b, d, 8), (c, d, b, 7)):
                w[x] = w[x] + w[y] & MASK
                w[z] = left(w[z] ^ w[x], n)
    return [x + y & MASK for x, y in zip(w, first)]


class Stream:
    """A key, and how many words it has given."""

    def __init__(self, key, words=0):
        self.key, self.words, self.held = key, words, (None, None)

    def word(self):
        number, place = divmod(self.words, 16)
        if self.held[0] != number:
            self.held = number, block(self.key, number)
        self.words += 1
        return self.held[1][place]

    def long(self):
        low = self.word()
        return low | self.word() << 32

    def fraction(self):
        return (self.long() >> 11) / 2 ** 53

    def hits(self, rate):
        return rate > 0 and self.fraction() < rate

    def real(self, low, high):
        v = (self.long() >> 12) / 2 ** 52
        return v * (high - low) + low

    def whole(self, n, bits):
        draw = self.long if bits == 64 else self.word
        high, low = divmod(draw() * n, 2 ** bits)
        if low > 2 ** bits - n and not wrong('whole range without its second draw'):
            high += low + (draw() * n >> bits) >= 2 ** bits
        return high


def seconds(ns):
    return float(ns // SECOND) + float(ns % SECOND) / 1e9


def nanoseconds(s):
    exact = Fraction(s) * SECOND
    return int(exact) if wrong('nanoseconds cut off') else round(exact)
