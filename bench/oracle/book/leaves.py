#!/usr/bin/env python3
"""leaves.py ANSWERS: the leaves of the original, through the program ANSWERS that build.sh makes, against others: digests and link keys
against b3sum, ChaCha8 against its published vector and draws.py, draws and seconds against exact arithmetic.
The status is not 0 where one differs."""
import random
import struct
import subprocess
import sys
from fractions import Fraction

sys.dont_write_bytecode = True
from draws import SECOND, Stream, seconds

ZERO = '0' * 16
# draft-strombergson-chacha-test-vectors-01, TC1: 256 zero bits of key, zero IV, 8 rounds
PUBLISHED = ('3e00ef2f895f40d67f5bb8e81f09a5a12c840ec3ce9a7f3b181be188ef711a1e'
             '984ce172b9216f419f445367456d5619314a42a3da86b001387bfdb80e0cfe42')
LENGTHS = [0, 1, 2, 3, 63, 64, 65, 127, 128, 129, 1023, 1024, 1025, 2047, 2048, 2049, 3072, 3073, 4096, 4097, 5120, 8192, 8193, 16384, 31744,
           65535, 65536, 65537, 65600, 65700]
rng = random.Random(5)
asked = []


def ask(line, wanted):
    asked.append((line, wanted))


def opening(seed):
    rates = ' '.join(f'{r}={ZERO}' for r in ('jit', 'loss', 'dup', 'rep', 'spike'))
    return f'open tills=2 seed={seed} fkey=auto log=0 lat=0 {rates} regions=none types=61 shards=none masks=0,0'


def b3sum(data):
    return subprocess.run(['b3sum', '--no-names'], input=data, capture_output=True, check=True).stdout.decode().strip()


def bits(x):
    return struct.pack('>d', x).hex()


def draw(kind, spelt, *between, most=12):
    """A draw line: `spelt` makes one value of a stream."""
    key, words, n = rng.randbytes(32), rng.choice([0, 1, 15, 16, 17, 63, 64, rng.randrange(2 ** 20), rng.randrange(2 ** 40)]), rng.randrange(1, most)
    stream = Stream(key, words)
    values = [spelt(stream) for _ in range(n)]
    ask(' '.join(map(str, ('draw', kind, key.hex(), words, *between, n))), ' '.join(['draw', kind, *values, f'words={stream.words}']))


def words_and_ranges():
    for _ in range(300):
        draw('word', lambda s: '%08x' % s.word(), most=80)
        draw('long', lambda s: '%016x' % s.long())
        draw('fraction', lambda s: bits(s.fraction()))
        j = rng.choice([0.015, 0.1, 60.0, rng.random() / 10 ** 6, rng.random() * 60])
        low, high = rng.choice([(-j, j), (10.0, 50.0)])
        draw('real', lambda s: bits(s.real(low, high)), bits(low), bits(high))
        n = rng.choice([1, 2, 3, 10, 64, 121, 900_000_001, 2 ** 63 + 1, 2 ** 64 - 1, rng.randrange(1, 2 ** 64)])
        first = rng.randrange(2 ** 64 - n + 1)
        draw('whole', lambda s: str(first + s.whole(n, 64)), first, first + n - 1)
        n = rng.choice([1, 2, 3, 63, 64, 2 ** 31 + 1, 2 ** 32 - 1, rng.randrange(1, 2 ** 32)])
        draw('index', lambda s: str(s.whole(n, 32)), n)


def times():
    """Ties among them: odd numbers of 1 / 1,024 s."""
    halves = [(2 * i + 1) / 1024 for i in range(2000)] + [(2 * i + 1) / 512 for i in range(200)]
    for x in halves + [rng.random() * 3000 for _ in range(4000)] + [0.0, 5e-10, 1e-9, 0.001, 60.0, 3000.0, 2.0 ** -1074]:
        ask('nanos ' + bits(x), f'nanos {round(Fraction(x) * SECOND)}')
    for _ in range(3000):
        t = rng.choice([rng.randrange(60 * SECOND + 1), rng.randrange(3000 * SECOND), rng.randrange(2 ** 60)])
        ask(f'secs {t}', 'secs ' + bits(seconds(t)))
        t, by = rng.randrange(10 ** 6, 120 * SECOND), 10 + 40 * rng.random()
        ask(f'times {t} {bits(by)}', f'times {round(Fraction(seconds(t) * by) * SECOND)}')


def digests():
    for n in LENGTHS + [rng.randrange(65701) for _ in range(60)]:
        data = rng.randbytes(n)
        ask('digest x' + data.hex(), 'digest ' + b3sum(data))
    for seed in (0, 1, 2 ** 64 - 1, rng.randrange(2 ** 64)):
        ask(opening(seed), 'open ok')
        for a, b in ((0, 1), (1, 0), (63, 5)):
            ask(f'linkkey {a} {b}', 'linkkey ' + b3sum(struct.pack('<Q', seed) + b'link' + struct.pack('<II', a, b)))


def main():
    if len(sys.argv) != 2:
        sys.exit(__doc__)
    ask(opening(1), 'open ok')
    published = struct.unpack('<16I', bytes.fromhex(PUBLISHED))
    ask('draw word ' + '00' * 32 + ' 0 16', ' '.join(['draw word', *('%08x' % w for w in published), 'words=16']))
    words_and_ranges()
    times()
    digests()
    script = ''.join(line + '\n' for line, _ in asked)
    told = subprocess.run([sys.argv[1]], input=script, capture_output=True, text=True, check=True).stdout.splitlines()
    differ = [(line, wanted, got) for (line, wanted), got in zip(asked, told) if wanted != got]
    for line, wanted, got in differ[:5]:
        print(line[:150], '\n  wanted', wanted[:250], '\n  told  ', got[:250])
    print(f'{len(asked)} lines, {len(differ)} differ')
    sys.exit(1 if differ or len(told) != len(asked) else 0)


main()
