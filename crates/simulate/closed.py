#!/usr/bin/env python3
# closed.py   prints the script of closed windows (document 02, M-111): a part of this crate's stdin. The original knows no such card; bench/oracle/book/book.py answers.
import random
import struct

rng = random.Random(6)
out = []
TILLS, TYPES = 4, 3
LAST = 2 ** 64 - 1
LATEST = 2 ** 60
SIZES = [1, 4, 4, 1, 8, 16]  # the bytes of the fields, bit 0 first
sent = 0


def opening():
    key = ''.join('%02x' % rng.randrange(256) for _ in range(32))
    types = ','.join(('t%d' % i).encode().hex() for i in range(TYPES))
    zero = '0' * 16
    out.append('open tills=%d seed=1 fkey=%s log=0 lat=1000000 jit=%s loss=%s dup=%s rep=%s spike=%s regions=none types=%s shards=none masks=%s'
               % (TILLS, key, zero, zero, zero, zero, zero, types, ','.join('0' * TILLS)))


# a card of any map: its fields are those whose bit stands
def card(map, window):
    fields = [bytes([rng.randrange(TYPES)]), struct.pack('<I', rng.randrange(TILLS)), struct.pack('<I', rng.randrange(TILLS)), bytes([rng.randrange(4)]),
              struct.pack('<d', rng.random()), struct.pack('<QQ', *window)]
    return bytes([map]) + b''.join(f for k, f in enumerate(fields) if map >> k & 1)


def install(c):
    out.append('install x' + c.hex())


def decide(now, frm=0, to=1, kind=0, tier=0):
    out.append('decide %d %d %d %d %d' % (frm, to, kind, tier, now))


# a message of its own each time
def accept(now):
    global sent
    sent += 1
    out.append('accept 0 %d 0 0 g x%08x 1 %d' % (now, sent, sent))


def window():
    start = rng.choice([0, 5, rng.randrange(100)])
    return start, rng.choice([start, start, start + 3, rng.randrange(100), LAST])


# every map at its exact length, empty, as the map alone, one byte short, one and sixteen bytes long
def maps():
    opening()
    ids = 0
    for map in range(256):
        start, end = window()
        whole = card(map, (start, end))
        for c in (b'', whole[:1], whole[:-1], whole + b'\0', whole + bytes(16)):
            if c != whole:
                install(c)
                if c == b'\0':
                    out.append('remove %d' % ids)
                    ids += 1
        install(whole)
        for now in (start, end, end + 1):
            if now <= LATEST:
                decide(now, rng.randrange(TILLS), rng.randrange(TILLS), rng.randrange(TYPES), rng.randrange(4))
        out.append('fired %d' % ids)
        if map < 128 and (map >> 5 & 1 or not map >> 6 & 1) and (not map >> 5 & 1 or (start <= end if map >> 6 & 1 else start < end)):
            out.append('remove %d' % ids)
            ids += 1
    out.append('rules')


# closed and half-open windows with the same ends, at the times around them; beyond 2^60 a call is refused with 7
def ends():
    opening()
    ids = 0
    for start, end in [(5, 5), (5, 6), (5, 8), (8, 5), (6, 5), (0, 0), (0, 1), (0, 5), (1, 0), (LATEST, LATEST), (LATEST - 1, LATEST), (5, LATEST), (LATEST, LATEST - 1),
                       (LATEST, LAST), (LAST, LAST), (0, LAST), (7, LAST), (LAST, 0), (LAST, LAST - 1), (LAST - 1, LAST)]:
        for map in (96, 32):
            install(card(map, (start, end)))
            for now in (start - 1, start, end, end + 1):
                if 0 <= now <= LAST:
                    decide(now)
                    accept(now)
            out.append('fired %d' % ids)
            if start < end or start == end and map == 96:
                out.append('remove %d' % ids)
                ids += 1
        out.append('flush %d' % LATEST)
    out.append('rules')


# any cards and messages
def mixed(calls):
    opening()
    ever = 0
    for _ in range(calls):
        k = rng.randrange(10)
        if k < 3:
            map = rng.randrange(32) | rng.choice([0, 32, 96, 96, 96])
            if rng.randrange(10) == 0:
                map |= 128
            w = window()
            install(card(map, w))
            if map < 128 and (not map >> 5 & 1 or (w[0] <= w[1] if map >> 6 & 1 else w[0] < w[1])):
                ever += 1
                if ever > 50:
                    out.append('remove %d' % (ever - 51))
        elif k == 3 and ever:
            out.append(rng.choice(['remove %d', 'fired %d', 'fired %d']) % rng.randrange(ever))
        elif k < 6:
            accept(rng.randrange(120))
        elif k == 6 and rng.randrange(4) == 0:
            out.append('flush %d' % LATEST)
        else:
            decide(rng.randrange(120), rng.randrange(TILLS), rng.randrange(TILLS), rng.randrange(TYPES), rng.randrange(4))
    out.append('rules')
    out.append('words')


maps()
ends()
mixed(800)
print('\n'.join(out))
