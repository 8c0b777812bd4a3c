#!/usr/bin/env python3
# faults.py   prints the script of rule and block calls: a part of this crate's stdin. README.md says what it holds.
import random
import struct

rng = random.Random(4)
out = []
TILLS, TYPES = 4, 3
LAST = 2 ** 64 - 1
LATEST = 2 ** 60
SIZES = [1, 4, 4, 1, 8, 16]  # the bytes of the fields, bit 0 first


def bits(x):
    return struct.unpack('<Q', struct.pack('<d', x))[0]


# NaN of both signs, infinities, below 0, above 1, both zeros, the ends of 0..1 and next to them
EDGES = [
    0x7ff8000000000000, 0x7ff0000000000001, 0x7fffffffffffffff, 0xfff8000000000000, 0xfff0000000000001, LAST,
    0x7ff0000000000000, 0xfff0000000000000, bits(-1.0), bits(-1e-300), bits(-1e300), bits(1.5), bits(2.0), bits(1e300),
    bits(0.0), bits(-0.0), 1, 0x000fffffffffffff, 0x0010000000000000, bits(1.0), bits(1.0) - 1, bits(1.0) + 1, bits(0.5),
    bits(0.25), bits(0.999), bits(2.0 ** -53), bits(2.0 ** -52),
]


def opening():
    key = ''.join('%02x' % rng.randrange(256) for _ in range(32))
    types = ','.join(('t%d' % i).encode().hex() for i in range(TYPES))
    masks = ','.join('0' for _ in range(TILLS))
    zero = '0' * 16
    out.append('open tills=%d seed=1 fkey=%s log=0 lat=1000000 jit=%s loss=%s dup=%s rep=%s spike=%s regions=none types=%s shards=none masks=%s'
               % (TILLS, key, zero, zero, zero, zero, zero, types, masks))


# the bytes of a card: a field stands where it is given
def card(kind=None, frm=None, to=None, tier=None, probability=None, window=None, high=0):
    fields = [kind, frm, to, tier, probability, window]
    packed = [lambda v: bytes([v]), lambda v: struct.pack('<I', v), lambda v: struct.pack('<I', v), lambda v: bytes([v]),
              lambda v: struct.pack('<Q', v), lambda v: struct.pack('<QQ', *v)]
    body = b''.join(p(v) for p, v in zip(packed, fields) if v is not None)
    return bytes([high | sum(1 << i for i, v in enumerate(fields) if v is not None)]) + body


def install(c):
    out.append('install x' + c.hex())


def decide(frm=0, to=1, kind=0, tier=0, now=6):
    out.append('decide %d %d %d %d %d' % (frm, to, kind, tier, now))


# Document 02, M-110: an end at or before its start is refused with 18, and the original, which takes it, never matches it. What stands for such a window here
# never matches either: it begins behind the latest now.
def forward(start, end):
    return (start, end) if start < end else (LAST - 1, LAST)


def window():
    start = rng.choice([0, 5, rng.randrange(100)])
    return forward(start, rng.choice([start, start + 3, start + rng.randrange(80), rng.randrange(100), LAST]))


def likely():
    return rng.choice([rng.choice(EDGES), bits(rng.random()), rng.randrange(2 ** 64)])


# a card of any map: what it names may not exist
def any_card(map):
    has = lambda k, v: v if map >> k & 1 else None
    return card(has(0, rng.choice([0, 1, 2, 3, 255])), has(1, rng.choice([0, 1, 2, 3, 4, 2 ** 32 - 1])), has(2, rng.choice([0, 1, 2, 3, 4, 2 ** 31])),
                has(3, rng.randrange(4)), has(4, likely()), has(5, window()), map & 192)


def messages(n):
    for _ in range(n):
        decide(rng.randrange(TILLS), rng.randrange(TILLS), rng.randrange(TYPES), rng.randrange(4), rng.choice([4, 5, 7, 8, rng.randrange(100), LATEST]))


# every map, exact, short and long; and every tier
def cards():
    opening()
    ids = 0
    for map in range(256):
        whole = any_card(map)
        for c in (b'', whole[:1], whole[:-1], whole + b'\0', whole + bytes(16)):
            if c != whole:
                install(c)
                if len(c) == 1 and c[0] == 0:
                    ids += 1
                    out.append('remove %d' % (ids - 1))
        # bit 6 beside bit 5 is a closed window, which the original does not know: closed.py
        if not 96 <= map < 128:
            install(whole)
        if map < 64:
            messages(3)
            out.append('fired %d' % ids)
            out.append('remove %d' % ids)
            out.append('fired %d' % ids)
            ids += 1
    for tier in range(256):
        install(card(tier=tier))
        if tier < 4:
            for t in range(4):
                decide(tier=t)
            out.append('remove %d' % ids)
            ids += 1
    out.append('rules')


# each probability by itself, and all of them in a row
def probabilities():
    opening()
    for k, p in enumerate(EDGES):
        install(card(probability=p))
        for _ in range(6):
            decide()
        out.append('fired %d' % k)
        out.append('remove %d' % k)
    for p in EDGES:
        install(card(probability=p, to=3, tier=1))
    for _ in range(8):
        decide(to=3, tier=1)
        decide(to=2, tier=1)
    out.append('rules')


# fired counts that wrap, read and then removed
def wraps():
    opening()
    for k, count in enumerate([LAST, LAST - 1, 2 ** 63, 2 ** 32 - 1]):
        install(card(kind=k % 3))
        out.append('setfired %d %d' % (k, count))
        for _ in range(3):
            decide(kind=k % 3)
            out.append('fired %d' % k)
        out.append('remove %d' % k)
        out.append('fired %d' % k)
        out.append('remove %d' % k)


# 64 rules that draw and pass: eight blocks of words a decision; then removals from every place
def full():
    opening()
    for _ in range(64):
        install(card(probability=bits(0.0)))
    for _ in range(5):
        decide()
    out.append('rules')
    for k in [0, 63, 31, 32, 1, 62] + rng.sample(range(64), 40):
        out.append('remove %d' % k)
        out.append('rules')
        decide()
    for _ in range(40):
        install(any_card(16 + rng.randrange(16)))
        messages(2)
    out.append('rules')


# windows of rules and blocks at their ends
def windows():
    opening()
    for k, (start, end) in enumerate([(5, 8), (5, 5), (8, 5), (0, 0), (0, 1), (LATEST, LAST), (0, LATEST), (LAST, LAST), (7, LAST)]):
        install(card(window=forward(start, end)))
        out.append('blockd 0 1 %d %d' % forward(start, end))
        for now in [0, 1, 4, 5, 7, 8, LATEST - 1, LATEST]:
            decide(now=now)
            out.append('isblocked 0 1 %d' % now)
        out.append('remove %d' % k)
        out.append('unblock 0 1')
        out.append('isblocked 0 1 5')


# several windows of one pair go at once, the other direction stays; then 256 windows
def pairs():
    opening()
    out.extend(['block 0 1', 'blockd 0 1 5 8', 'block 1 0', 'blockd 0 1 20 30', 'blockd 2 3 5 8', 'block 0 1'])
    asks = ['isblocked %d %d %d' % (a, b, t) for a, b in ((0, 1), (1, 0), (2, 3), (3, 2)) for t in (4, 5, 8, 25)]
    out.extend(asks + ['unblock 0 1'] + asks + ['unblock 0 1', 'unblock 1 0'] + asks + ['unblock 2 3'])
    for _ in range(256):
        a, b = rng.randrange(TILLS), rng.randrange(TILLS)
        out.append('block %d %d' % (a, b) if rng.randrange(40) == 0 else 'blockd %d %d %d %d' % ((a, b) + window()))
    for a in range(TILLS):
        for b in range(TILLS):
            out.extend('isblocked %d %d %d' % (a, b, t) for t in (0, 7, 50, 99, LATEST))
            if rng.randrange(2):
                out.append('unblock %d %d' % (a, b))
                out.extend('isblocked %d %d %d' % (x, y, 7) for x in range(TILLS) for y in range(TILLS))


# any calls in any order
def mixed(calls):
    opening()
    ever, live, cut = 0, set(), []
    for _ in range(calls):
        frm, to = rng.randrange(TILLS), rng.randrange(TILLS)
        now = rng.randrange(120)
        k = rng.randrange(12)
        if k < 2 and len(live) < 64:
            c = any_card(rng.randrange(64) | rng.choice([16, 18, 20, 22, 48, 0]))
            if rng.randrange(12) == 0:
                install(rng.choice([c[:-1], c + b'\1', bytes([c[0] | (128 if c[0] & 32 else 64)]) + c[1:], bytes([c[0] | 128]) + c[1:]]))
                if out[-1] == 'install x00':
                    live.add(ever)
                    ever += 1
            else:
                install(c)
                live.add(ever)
                ever += 1
        elif k == 2:
            i = rng.randrange(ever + 1)
            out.append('remove %d' % i)
            live.discard(i)
        elif k == 3:
            out.append('fired %d' % rng.randrange(ever + 1))
        elif k == 4 and live and rng.randrange(4) == 0:
            out.append('setfired %d %d' % (rng.choice(sorted(live)), LAST))
        elif k == 5 and len(cut) < 256:
            cut.append((frm, to))
            out.append('block %d %d' % (frm, to) if rng.randrange(4) == 0 else 'blockd %d %d %d %d' % ((frm, to) + window()))
        elif k == 6 and rng.randrange(3) == 0:
            out.append('unblock %d %d' % (frm, to))
            cut = [e for e in cut if e != (frm, to)]
        elif k == 7:
            out.append('isblocked %d %d %d' % (frm, to, now))
        elif k == 8 and rng.randrange(4) == 0:
            out.append('rules')
        else:
            decide(frm, to, rng.randrange(TYPES), rng.randrange(4), now)


cards()
probabilities()
wraps()
full()
windows()
pairs()
for _ in range(4):
    mixed(1500)
print('\n'.join(out))
