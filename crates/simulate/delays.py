#!/usr/bin/env python3
# delays.py   prints the script of draws, times, plans and latencies: a part of this crate's stdin. README.md says what it holds.
# delays.py ANSWERS   counts, from the answers to that script, the draws that a whole range took a second time.
import random
import struct
import sys

random.seed(20261115)
hexa = lambda x: '%016x' % struct.unpack('<Q', struct.pack('<d', x))[0]
asked = []
ranges = []          # for each whole range: where it stands among the questions, its width, where it draws, and of how many


def key():
    return random.randbytes(32).hex()


def count():
    return random.choice([0, 0, 1, 2, 3, 13, 14, 15, 16, 31, random.randrange(1000), random.randrange(2 ** 40), 2 ** 40 - 1])


# a whole range of W bits: the draws are asked too, so that second draws and carries can be counted
def whole(W, k, at, low, n):
    ranges.append((len(asked), W, at, n))
    asked.append('draw whole %s %d %d %d 1' % (k, at, low, low + n - 1) if W == 64 else 'draw index %s %d %d 1' % (k, at, n))
    asked.append('draw %s %s %d 2' % ('long' if W == 64 else 'word', k, at))


def f64():
    return random.choice([0.0, 1.0, 2.0 ** -20, 0.1, 0.5, random.random(), random.random(), 2.0 ** -random.randrange(20)])


def base():
    return random.choice([0, 1, 999, 999999, 1000000, 1000001, 2000000, 150000000, 999999999, 1000000000, 60000000000, 59999999999, random.randrange(60000000001), random.randrange(1000000000), random.randrange(10000000)])


def size():
    return random.choice([0, 1, 1000, 65536, random.randrange(65537)])


def opening(lat, jit, spike, plan):
    return ('open tills=64 seed=7 fkey=auto log=0 lat=%d jit=%s loss=%s dup=%s rep=%s spike=%s regions=%s types=61 shards=none masks=%s'
            % (lat, hexa(jit), hexa(0.0), hexa(0.0), hexa(0.0), hexa(spike), plan, ','.join(['0'] * 64)))


def draws():
    for _ in range(50):
        k = key()
        for _ in range(7):
            at = count()
            asked.append('draw fraction %s %d 1' % (k, at))
        for _ in range(9):
            at, j = count(), random.choice([1e-3, 1.5e-2, 60.0, 2.0 ** -20 * 1e-9, random.random(), 60 * random.random(), 0.15 * 0.1])
            low, high = random.choice([(-j, j), (-j, j), (10.0, 50.0), (0.0, 1.0)])
            asked.append('draw real %s %d %s %s 1' % (k, at, hexa(low), hexa(high)))
        for _ in range(12):
            n = random.choice([1, 2, 3, 10, 121, 900000001, 9000000001, 2 ** 32, 2 ** 63, 2 ** 63 + 1, 2 ** 64 - 1, 2 ** 64 - 2, random.randrange(2 ** 63, 2 ** 64), random.randrange(2 ** 63, 2 ** 64), random.randrange(2 ** 62, 2 ** 64), random.randrange(1, 2 ** random.randrange(1, 65))])
            whole(64, k, count(), random.choice([0, 2 ** 64 - n, random.randrange(2 ** 64 - n + 1)]), n)
        for _ in range(10):
            n = random.choice([1, 2, 63, 64, random.randrange(1, 65), 2 ** 31 + 1, 2 ** 32 - 1, 2 ** 32 - 2, random.randrange(2 ** 31, 2 ** 32), random.randrange(2 ** 31, 2 ** 32), random.randrange(1, 2 ** 32)])
            whole(32, k, count(), 0, n)


def times():
    for _ in range(350):
        n = random.choice([base(), random.randrange(2 ** random.randrange(1, 64))])
        asked.append('secs %d' % n)
    for i in range(450):
        x = random.choice([(2 * random.randrange(2, 500) + 1) / 1024, 0.001, 67108863.99999999, random.random() + 0.001, 60 * random.random() + 0.001, random.randrange(1, 2 ** 26) * 1.0, 0.15, base() / 1e9 + 0.001, (2 * random.randrange(2, 10 ** 6) + 1) / 2048])
        asked.append('nanos %s' % hexa(x))
    for _ in range(350):
        n, y = random.choice([1000000, 120000000000, 135000000, random.randrange(1000000, 180000000000), random.randrange(1000000, 10 ** 9)]), random.choice([10.0, 50.0, 49.99999999999999, 10 + 40 * random.random(), 1.0, 2.5])
        asked.append('times %d %s' % (n, hexa(y)))
    for _ in range(200):
        rate, b = random.choice([0, 1, 100000000, 1000000000, 10000000000, random.randrange(10 ** 8, 10 ** 10), random.randrange(2 ** random.randrange(1, 64))]), size()
        asked.append('wire %d %d' % (rate, b))


def plans():
    for i in range(34):
        regions, seed = (i if i < 17 else random.randrange(17)), random.choice([0, 1, 2 ** 64 - 1, random.randrange(2 ** 64), random.randrange(2 ** 64)])
        asked.append(opening(150000000, 0.1, 0.0, '%d:%d' % (regions, seed)))
        for _ in range(6):
            t, u, b = random.randrange(64), random.randrange(64), size()
            asked.append('region %d' % t)
            asked.append('link %d %d' % (t, u))
            asked.append('transmission %d %d %d' % (t, u, b))


def latencies():
    for i in range(300):
        k = key() if i % 10 == 0 else k
        lat, jit, spike = base(), f64(), random.choice([0.0, 0.0, 1.0, 0.5, f64()])
        planned, regions, seed = random.randrange(2), random.randrange(17), random.randrange(2 ** 64)
        asked.append(opening(lat, jit, spike, '%d:%d' % (regions, seed) if planned else 'none'))
        for _ in range(3):
            at, t, u, b = count(), random.randrange(64), random.randrange(64), size()
            asked.append('latency %s %d %d %d %d 1' % (k, at, t, u, b))


# how often a whole range of 64 and of 32 bits drew a second word, and with a carry
def second_draws(answers):
    found = {64: [0, 0], 32: [0, 0]}
    for place, W, at, n in ranges:
        after = int(answers[place].split('words=')[1])
        x, y = [int(t, 16) for t in answers[place + 1].split()[2:4]]
        if after == at + 2 * W // 32:
            found[W][0] += 1
            found[W][1] += x * n % 2 ** W + (y * n >> W) >= 2 ** W
    return found


asked.append(opening(150000000, 0.1, 0.0, 'none'))
draws()
times()
plans()
latencies()
if len(sys.argv) > 1:
    for W, (second, carried) in second_draws(open(sys.argv[1]).read().split('\n')).items():
        print('%d bits: %d second draws, %d with a carry' % (W, second, carried))
else:
    print('\n'.join(asked))
