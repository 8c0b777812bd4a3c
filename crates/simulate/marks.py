#!/usr/bin/env python3
# marks.py   prints the script of many marks: a part of this crate's stdin. README.md says what it holds.
import struct

NEWEST = 128
asked = []
sent = 0
now = 1


def opens(seen):
    rates = ' '.join('%s=%016x' % (r, 0) for r in ('jit', 'loss', 'dup', 'rep', 'spike'))
    asked.append('open tills=4 seed=5 fkey=auto log=0 lat=1000000 %s regions=none types=74 shards=6b masks=1,1,1,1 seen=%d' % (rates, seen))


def accept(i):
    asked.append('accept 0 %d 0 0 g x%s 1 %d' % (now, struct.pack('<H', i).hex(), i))


def accept_new(n):
    global sent
    for _ in range(n):
        accept(sent)
        sent += 1


def flush():
    global now
    now += 2_000_000
    asked.append('flush %d' % now)


# a way that is closed when the copies land: they are dropped, and their marks go
def flush_closed(t):
    asked.append('block 0 %d' % t)
    flush()
    asked.append('unblock 0 %d' % t)


# up to each count, on both sides of where the newest ids go among the others
opens(4096)
for count in (1, NEWEST - 1, NEWEST, NEWEST + 1, 200, 2 * NEWEST - 1, 2 * NEWEST, 2 * NEWEST + 1, 300):
    accept_new(count - sent)
    asked.append('seen 1')
# the same ones again, older and newest
for i in (0, 1, NEWEST - 1, NEWEST, 2 * NEWEST, sent - 1):
    accept(i)
flush()
# more than the newest part holds go at once, then some come again
accept_new(140)
asked.append('seen 2')
flush_closed(2)
asked.append('seen 2')
for i in (sent - 140, sent - 70, sent - 1, 0):
    accept(i)
flush()
asked.append('seen 2')
# one added and dropped, over and over, at a count that NEWEST divides
accept_new(3 * NEWEST + NEWEST - sent)
flush()
for _ in range(3):
    accept_new(1)
    flush_closed(3)
    asked.append('seen 3')
# none left, and a first one again
asked.append('down 1')
asked.append('seen 1')
asked.append('up 1 1')
accept(7)
flush()
asked.append('seen 1')
asked.append('state')
print('\n'.join(asked))
