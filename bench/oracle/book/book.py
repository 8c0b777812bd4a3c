#!/usr/bin/env python3
"""book.py SCRIPT...: the book of documents 01 and 02, kept from their text alone and not from the Rust, against SCRIPT's .expected beside it.
book.py wrong SCRIPT...: each error of wrong.py in turn; the scripts must notice every one.
book.py answers <SCRIPT: the book's own answers to a script.
The status is not 0 where an answer differs, or an error goes unnoticed."""
import pathlib
import struct
import sys

sys.dont_write_bytecode = True
import wrong as errors
from digest import digest, number_of
from draws import SECOND, Stream, nanoseconds, seconds
from wrong import wrong

RING = 64
COUNTS = ('sent', 'dedup', 'partition', 'loss', 'fault')
CARD = (1, 4, 4, 1, 8, 16)
# no now is later; where each call has its own
LATEST = 2 ** 60
NOW = {'accept': 1, 'flush': 0, 'isblocked': 2, 'decide': 4}


def dash(v):
    return '-' if v is None else str(v)


def bytes_of(word):
    if word[0] == 'x':
        return bytes.fromhex(word[1:])
    length, fill = word.split('*')
    return bytes.fromhex(fill) * int(length)


def float_of(word):
    return struct.unpack('>d', bytes.fromhex(word))[0]


def texts(value):
    return [bytes.fromhex(t.strip('-')) for t in parts(value)]


def parts(value):
    return [] if value == 'none' else value.split(',')


class Window:
    """Document 02, M-111: the end of a closed window belongs to it."""

    def __init__(self, start, end, closed=False):
        self.start, self.end, self.closed = start, end, closed

    def holds(self, t):
        return self.start <= t < self.end or self.closed and t == self.end

    def turned(self):
        """Document 02, M-110: the end is at or before the start; of a closed window, before it."""
        return self.end < self.start or self.end == self.start and not self.closed


def holds(window, t):
    return window is None or window.holds(t)


def turned(window):
    return window is not None and window.turned()


class Copy:
    """A copy; echoes carry no id."""

    def __init__(self, ends, kind, message, now, time, shard, mark=None):
        self.ends, self.kind, self.sent, self.time, self.shard, self.mark = ends, kind, now, time, shard, mark
        self.cls, self.wire, self.tag = message
        self.sequence = 0

    def record(self):
        return f'{self.ends[0]} {self.ends[1]} {self.kind} {self.cls} {self.sent} {self.time} {dash(self.shard)} {self.wire}'

    def line(self):
        return f'{self.record()} {self.sequence} {dash(self.mark and "%016x" % self.mark[1])} {self.tag}'


class Till:
    def __init__(self, shards):
        self.up, self.shards, self.gossip, self.host, self.marks = True, shards, 0, 0, set()

    def take_down(self):
        self.up, self.shards, self.gossip, self.host = False, 0, 0, 0
        if not wrong('marks kept by take-down'):
            self.marks.clear()

    def bring_up(self, shards):
        self.up, self.shards, self.gossip, self.host = True, shards, 0, 0
        if wrong('marks gone with bring-up'):
            self.marks.clear()


class Rule:
    def __init__(self, number, fields, closed):
        whole = [None if f is None else int.from_bytes(f, 'little') for f in fields]
        self.number, self.fired = number, 0
        self.kind, self.sender, self.to, self.tier = whole[:4]
        self.window = None if fields[5] is None else Window(*struct.unpack('<QQ', fields[5]), closed)
        self.probability = None
        if fields[4] is not None:
            p = struct.unpack('<d', fields[4])[0]
            if p != p and wrong('NaN passes'):
                p = 0.0
            self.probability = min(max(p, 0.0), 1.0) if p == p else p

    def fits(self, ends, kind, tier, now):
        wanted = ((self.sender, ends[0]), (self.to, ends[1]), (self.kind, kind), (self.tier, tier))
        return holds(self.window, now) and all(w in (None, is_) for w, is_ in wanted)

    def drops(self, stream):
        if self.probability is None:
            return True
        if wrong('probability 0 or 1 without a draw') and self.probability in (0.0, 1.0):
            return self.probability == 1.0
        # not below: so that NaN drops
        return not stream.fraction() >= self.probability


class Geography:
    """Regions of the tills, and base and rate of each pair of regions."""

    def __init__(self, regions, seed, tills):
        self.regions = max(regions, 1)
        stream, self.pairs = Stream(digest(struct.pack('<Q', seed) + b'links' + bytes(4))), {}
        for a in range(self.regions):
            for b in range(a, self.regions):
                base, bases, rate, rates = (1, 10, 10 ** 9, 10 ** 10) if a == b else (40, 160, 10 ** 8, 10 ** 9)
                drawn = base + stream.whole(bases - base + 1, 64), rate + stream.whole(rates - rate + 1, 64)
                self.pairs[a, b] = self.pairs[b, a] = drawn[0] * 10 ** 6, drawn[1]
        self.of = [number_of(struct.pack('<Q', seed) + b'host' + struct.pack('<I', t)) % self.regions for t in range(tills)]

    def link(self, a, b):
        return self.pairs[self.of[a], self.of[b]]


class Log:
    def __init__(self, capacity):
        self.capacity = capacity
        self.clear()

    def clear(self):
        self.records, self.given_up, self.tallies = [], 0, [[0, 0] for _ in range(8)]

    def take(self, copy, handled):
        if not self.capacity:
            self.tallies[copy.cls][0] += wrong('tallies without a log')
            return
        if wrong('log of handled rows alone') and not handled:
            return
        self.tallies[copy.cls][0] += 1
        self.tallies[copy.cls][1] += copy.wire
        self.records.append(copy.record())
        if len(self.records) > self.capacity:
            self.records.pop(0)
            self.given_up += 1

    def drain(self):
        tallies = ','.join('%d:%d' % tuple(t) for t in self.tallies)
        told = [f'drain records={len(self.records)} dropped={self.given_up} tallies={tallies}']
        told += ['record ' + r for r in self.records]
        self.clear()
        return told


class Book:
    def __init__(self, line):
        f = dict(word.split('=') for word in line.split()[1:])
        self.seed, self.fault = int(f['seed']), Stream(bytes.fromhex(f['fkey']))
        self.latency, self.jitter, self.spike = int(f['lat']), float_of(f['jit']), float_of(f['spike'])
        self.loss, self.duplicate, self.replay = (float_of(f[k]) for k in ('loss', 'dup', 'rep'))
        self.names, self.keys, self.log = texts(f['types']), texts(f['shards']), Log(int(f['log']))
        self.tills = [Till(int(m, 16)) for m in parts(f['masks'])]
        self.geography = None
        if f['regions'] != 'none':
            self.geography = Geography(*map(int, f['regions'].split(':')), len(self.tills))
        self.streams, self.windows, self.rules, self.rings = {}, [], [], {}
        self.installed = self.sequence = 0
        self.waiting = []

    # ---- draws

    def stream(self, ends):
        if ends not in self.streams:
            self.streams[ends] = Stream(digest(struct.pack('<Q', self.seed) + b'link' + struct.pack('<II', *ends)))
        return self.streams[ends]

    def delay(self, ends, size, stream):
        base, transmission = self.latency, 0
        if self.geography:
            base, rate = self.geography.link(*ends)
            transmission = size * SECOND // rate
        s = seconds(base)
        j = s * self.jitter
        s += stream.real(-j, j) if j > 0 else 0.0
        if wrong('transmission before the rounding'):
            ns = nanoseconds(max(s + transmission / 1e9, 0.001))
        else:
            ns = nanoseconds(max(s, 0.001)) + transmission
        if stream.hits(self.spike):
            ns = nanoseconds(seconds(ns) * stream.real(10.0, 50.0))
        return ns

    # ---- blocks and rules

    def stopped(self, ends, t):
        return not all(self.tills[e].up for e in ends) or self.blocked(ends, t)

    def blocked(self, ends, t):
        return any(pair == ends and holds(window, t) for pair, window in self.windows)

    def decide(self, ends, kind, tier, now):
        for rule in self.rules:
            if rule.fits(ends, kind, tier, now) and rule.drops(self.fault):
                rule.fired = (rule.fired + 1) % 2 ** 64
                return True
        return False

    def install(self, card):
        fields, rest = [None] * 6, card[1:]
        for k, size in enumerate(CARD):
            if card and card[0] >> k & 1:
                fields[k], rest = rest[:size], rest[size:]
        closed = bool(card) and card[0] >> 6 & 1 == 1
        exact = card and card[0] < 128 and (fields[5] is not None or not closed) and not rest and all(f is None or len(f) == CARD[k] for k, f in enumerate(fields))
        if not exact or fields[3] is not None and fields[3][0] > 3:
            return ['install refused 13']
        rule = Rule(self.installed, fields, closed)
        if turned(rule.window):
            return ['install refused 18']
        self.rules.append(rule)
        self.installed += 1
        return [f'install id={self.installed - 1}']

    def remove(self, number):
        for rule in self.rules:
            if rule.number == number:
                self.rules.remove(rule)
                return [f'remove 1 fired={rule.fired}']
        return ['remove 0 fired=-']

    def fired(self, number):
        return ['fired ' + next((str(r.fired) for r in self.rules if r.number == number), 'gone')]

    def unblock(self, ends):
        of = [w for w in self.windows if w[0] == ends]
        gone = of[-1:] if wrong('one window unblocked') else of
        self.windows = [w for w in self.windows if not any(w is g for g in gone)]

    # ---- accept and flush

    def schedule(self, copy):
        self.sequence += 1
        copy.sequence = self.sequence
        self.waiting.append(copy)

    def offer(self, ends, kind, message, shard, mark, now):
        """One recipient: the count that it goes under."""
        marks, stream = self.tills[ends[1]].marks, self.stream(ends)
        if mark in marks and not wrong('partition before the mark'):
            return 'dedup'
        if self.stopped(ends, now):
            return 'partition'
        if mark in marks:
            return 'dedup'
        if wrong('loss drawn at rate 0') and self.loss == 0:
            stream.fraction()
        if stream.hits(self.loss):
            return 'loss'
        late = wrong('latency after the rules')
        ns = 0 if late else self.delay(ends, message[1], stream)
        if wrong('mark before the rules'):
            marks.add(mark)
        if self.decide(ends, kind, 0, now):
            return 'fault'
        ns = self.delay(ends, message[1], stream) if late else ns
        marks.add(mark)
        self.schedule(Copy(ends, kind, message, now, now + ns, shard, (ends[1], mark)))
        if self.duplicate > 0 or self.replay > 0:
            self.echo(ends, kind, message, shard, now, stream)
        return 'sent'

    def echo(self, ends, kind, message, shard, now, stream):
        ring, early = self.rings.setdefault((kind, shard), []), wrong('ring holds the message already')
        if early:
            ring.append(message)
        again = [message] if stream.hits(self.duplicate) else []
        if (ring or not wrong('replay not drawn on an empty ring')) and stream.hits(self.replay) and ring:
            again.append(ring[stream.whole(len(ring), 64 if wrong('index of 64 bits') else 32)])
        for m in again:
            if wrong("echo of the new message's class"):
                m = (message[0], *m[1:])
            self.schedule(Copy(ends, kind, m, now, now + self.delay(ends, m[1], stream), shard))
        if not early:
            ring.append(message)
        del ring[:-63 if wrong('ring of 63') else -RING]

    def accept(self, sender, now, kind, cls, to, wire, opens, tag):
        sender, now, kind, wire = int(sender), int(now), int(kind), bytes_of(wire)
        shard = None if to == 'g' else int(to[1:])
        scope = b'\0' if shard is None else b'\1' + self.keys[shard]
        mark, counts = number_of(self.names[kind] + scope + wire), dict.fromkeys(COUNTS, 0)
        for t, till in enumerate(self.tills if opens == '1' else []):
            if t != sender and (shard is None or till.shards >> shard & 1):
                counts[self.offer((sender, t), kind, (int(cls), len(wire), int(tag)), shard, mark, now)] += 1
        said = ' '.join(f'{k}={counts[k]}' for k in COUNTS)
        return [f'accept {said} id={mark:016x} sequence={self.sequence} waiting={len(self.waiting)}']

    def takers(self, c):
        till = self.tills[c.ends[1]]
        gossip = till.gossip >> c.kind & 1
        host = till.host >> c.kind & 1 and (c.shard is None or wrong('host handler of a shard entry'))
        return 'g' * gossip + ('h' if host else '')

    def in_order(self):
        sign = -1 if wrong('later sequence first') else 1
        return sorted(self.waiting, key=lambda c: (c.time, sign * c.sequence))

    def flush(self, now):
        told, delivered, dropped = [], 0, 0
        due = [c for c in self.in_order() if c.time <= now]
        self.waiting = [c for c in self.waiting if c.time > now]
        for c in due:
            if self.stopped(c.ends, now if wrong("block at the flush's now") else c.time):
                dropped += 1
                told.append('drop ' + c.line())
                if c.mark and not wrong('mark kept at a flush drop'):
                    self.tills[c.mark[0]].marks.discard(c.mark[1])
                continue
            by = self.takers(c)
            delivered += by != ''
            self.log.take(c, by != '')
            told.append(f'row {c.line()} {by or "-"}')
        return [f'flush delivered={delivered} dropped={dropped} rows={len(due) - dropped}'] + told

    # ---- readings

    def seen(self, t):
        marks = sorted(self.tills[t].marks)
        return f'seen {t} {len(marks)}' + ''.join(' %016x' % m for m in marks)

    def read_rings(self):
        order = sorted(self.rings, key=lambda r: (r[0], -1 if r[1] is None else r[1]))
        told = [f'ring {k} {dash(s)} {len(self.rings[k, s])}' + ''.join(' %d/%d/%d' % m for m in self.rings[k, s]) for k, s in order]
        return [f'rings {len(told)}'] + told

    def read_words(self):
        return [f'words fault={self.fault.words}'] + [f'word {a} {b} {s.words}' for (a, b), s in sorted(self.streams.items()) if s.words]

    def reading(self, call):
        if call == 'tills':
            return ['tills' + ''.join(f' {t.up:d}/{t.shards:04x}/{t.gossip:04x}/{t.host:04x}' for t in self.tills)]
        if call == 'blocks':
            return [f'blocks edges={len({w[0] for w in self.windows})} windows={len(self.windows)}']
        if call == 'rules':
            return [f'rules {len(self.rules)}' + ''.join(f' {r.number}:{r.fired}' for r in self.rules)]
        if call == 'words':
            return self.read_words()
        if call == 'rings':
            return self.read_rings()
        if call == 'seen':
            return [self.seen(t) for t in range(len(self.tills))]
        if call == 'next':
            return [f'next {dash(min((c.time for c in self.waiting), default=None))}']
        if call == 'waiting':
            return [f'waiting {len(self.waiting)}'] + ['copy ' + c.line() for c in sorted(self.waiting, key=lambda c: (c.time, c.sequence))]
        return [line for part in ('tills', 'blocks', 'rules', 'words', 'rings', 'seen', 'waiting') for line in self.reading(part)]

    def should(self, a, b, now, size):
        stream, ns = self.stream((a, b)), None
        if not self.stopped((a, b), now) and not stream.hits(self.loss):
            ns = self.delay((a, b), size, stream)
        return [f'should {dash(ns)} words={stream.words}']

    def latencies(self, key, words, a, b, size, n):
        stream = Stream(bytes.fromhex(key), int(words))
        told = [str(self.delay((int(a), int(b)), int(size), stream)) for _ in range(int(n))]
        return [' '.join(['latency', *told]) + f' words={stream.words}']

    def plan(self, call, w):
        g = self.geography
        if call == 'region':
            return ['region ' + (str(g.of[w[0]]) if g else '-')]
        if call == 'link':
            return ['link base=%d rate=%d' % g.link(*w) if g else 'link -']
        return [f'transmission {w[2] * SECOND // g.link(w[0], w[1])[1] if g else 0}']

    # ---- a line

    def change(self, call, w):
        """The calls that are answered 'ok'."""
        t = int(w[0])
        if call == 'down':
            self.tills[t].take_down()
            if wrong('waiting gone with take-down'):
                self.waiting = [c for c in self.waiting if c.ends[1] != t]
        elif call == 'up':
            self.tills[t].bring_up(int(w[1], 16))
        elif call == 'handlers':
            self.tills[t].gossip, self.tills[t].host = int(w[1], 16), int(w[2], 16)
        elif call == 'unblock':
            self.unblock((t, int(w[1])))
        else:
            window = Window(*map(int, w[2:])) if w[2:] else None
            if turned(window):
                return [call + ' refused 18']
            self.windows.append(((t, int(w[1])), window))
        return [call + ' ok']

    def answer(self, line):
        call, *w = line.split()
        # question 7
        if call in NOW and int(w[NOW[call]]) > LATEST:
            return [call + ' refused 7']
        if call == 'accept':
            return self.accept(*w)
        if call == 'latency':
            return self.latencies(*w)
        if call == 'install':
            return self.install(bytes_of(w[0]))
        if call == 'drain':
            return self.log.drain()
        if call in ('down', 'up', 'handlers', 'block', 'blockd', 'unblock'):
            return self.change(call, w)
        w = [int(x) for x in w]
        if call == 'flush':
            return self.flush(w[0])
        if call in ('remove', 'fired'):
            return getattr(self, call)(w[0])
        if call == 'isblocked':
            return [f'isblocked {self.blocked((w[0], w[1]), w[2]):d}']
        if call == 'decide':
            return [f'decide {"drop" if self.decide((w[0], w[1]), *w[2:]) else "pass"} words={self.fault.words}']
        if call == 'should':
            return self.should(*w)
        if call == 'transit':
            return [f'transit {sum(c.ends[1] == w[0] and c.mark is not None for c in self.waiting)}']  # document 02, M-101: originals
        if call in ('region', 'link', 'transmission'):
            return self.plan(call, w)
        return [self.seen(w[0])] if call == 'seen' and w else self.reading(call)


def told_by_line(lines):
    """Each line, and what the book answers."""
    book = None
    for line in lines:
        if line.startswith('open '):
            book, told = Book(line), ['open ok']
        else:
            told = book.answer(line)
        yield line, told


def first_difference(path):
    """The lines compared, and the first that differs, or None."""
    wanted, at = path.with_suffix('.expected').read_text().splitlines(), 0
    for n, (line, told) in enumerate(told_by_line(path.read_text().splitlines()), 1):
        for mine, rust in zip(told, wanted[at:at + len(told)] + ['(nothing)'] * len(told)):
            if mine != rust:
                return at, f'{path} line {n}: {line[:150]}\n  book {mine[:250]}\n  rust {rust[:250]}'
        at += len(told)
    return at, None if at == len(wanted) else f'{path}: the original has more to say'


def compare(paths):
    lines = differ = 0
    for path in paths:
        n, difference = first_difference(path)
        lines, differ = lines + n, differ + (difference is not None)
        if difference:
            print(difference)
    print(f'{len(paths)} scripts, {lines} answer lines, {differ} differ')
    return differ


def unnoticed(paths):
    missed = 0
    for error in errors.WRONG:
        errors.choose(error)
        by = next((i for i, path in enumerate(paths, 1) if first_difference(path)[1]), None)
        missed += by is None
        print(f'{error}: ' + ('NOT NOTICED' if by is None else f'noticed by script {by}'))
    print(f'{len(errors.WRONG)} wrong books, {missed} not noticed')
    return missed


def main():
    args = sys.argv[1:]
    if args == ['answers']:
        for _, told in told_by_line(sys.stdin.read().splitlines()):
            print('\n'.join(told))
        return
    trying = args[:1] == ['wrong']
    paths = [pathlib.Path(a) for a in args[trying:]]
    if not paths:
        sys.exit(__doc__)
    sys.exit(1 if (unnoticed if trying else compare)(paths) else 0)


if __name__ == '__main__':
    main()
