#!/usr/bin/env python3
# make.py ANSWERS   writes stdin and stdout of this crate. README.md says what they hold; ANSWERS is the program `answers` that bench/oracle/build.sh makes.
import os
import random
import struct
import subprocess
import sys

HERE = os.path.dirname(os.path.abspath(__file__))
BOOK = os.path.join(HERE, '..', '..', 'bench', 'oracle', 'book', 'book.py')
rng = random.Random(7)
LAST = 2 ** 64 - 1
out = []


def bits(x):
    return '%016x' % struct.unpack('<Q', struct.pack('<d', x))[0]


def opening(tills, types, shards, masks, log=64, lat=150_000_000, jit=0.1, loss=0.0, dup=0.0, rep=0.0, spike=0.0, regions='none', key='auto', more=''):
    rates = tuple(bits(x) for x in (jit, loss, dup, rep, spike))
    names = ','.join(t.encode().hex() or '-' for t in types)
    keys = ','.join(s.hex() or '-' for s in shards) or 'none'
    return ('open tills=%d seed=%d fkey=%s log=%d lat=%d jit=%s loss=%s dup=%s rep=%s spike=%s regions=%s types=%s shards=%s masks=%s%s'
            % ((tills, rng.randrange(2 ** 64), key, log, lat) + rates + (regions, names, keys, ','.join('%x' % m for m in masks), more)))


# the bytes of a drop card
def card(kind=None, frm=None, to=None, tier=None, probability=None, window=None):
    fields = [kind, frm, to, tier, probability, window]
    packed = [lambda v: bytes([v]), lambda v: struct.pack('<I', v), lambda v: struct.pack('<I', v), lambda v: bytes([v]),
              lambda v: struct.pack('<d', v), lambda v: struct.pack('<QQ', *v)]
    body = b''.join(p(v) for p, v in zip(packed, fields) if v is not None)
    return bytes([sum(1 << i for i, v in enumerate(fields) if v is not None)]) + body


def some_card(tills, types, now):
    has = lambda v: v if rng.randrange(2) else None
    return card(has(rng.randrange(types + 1)), has(rng.randrange(tills)), has(rng.randrange(tills)), has(0), has(rng.choice([0.0, 0.3, 1.0])),
                has((now, now + rng.randrange(10 ** 9))))


def some_bytes():
    return rng.choice(['x' + bytes(rng.randrange(256) for _ in range(rng.randrange(40))).hex(), '%d*%02x' % (rng.choice([0, 1, 64, 1000, 65536]), rng.randrange(256))])


# calls in any order on an open network
def morning(tills, types, shards, calls):
    now = rng.randrange(2 ** 50)
    rules = 0
    carried = []
    for t in range(tills):
        out.append('handlers %d %x %x' % (t, rng.randrange(2 ** types), rng.randrange(2 ** types)))
    for _ in range(calls):
        t, u = rng.randrange(tills), rng.randrange(tills)
        k = rng.randrange(40)
        now += rng.choice([0, 1, 10 ** 6, 5 * 10 ** 7])
        if k < 16:
            if not carried or rng.randrange(4):
                carried.append((rng.randrange(types), rng.randrange(8), 'g' if not shards or rng.randrange(2) else 's%d' % rng.randrange(shards), some_bytes()))
            kind, cls, to, wire = rng.choice(carried[-5:])
            out.append('accept %d %d %d %d %s %s %d %d' % (t, now, kind, cls, to, wire, rng.randrange(12) > 0, rng.randrange(2 ** 64)))
        elif k < 22:
            out.append('flush %d' % (now + rng.choice([0, 10 ** 8, 10 ** 9])))
        elif k == 22:
            out.append('down %d' % t)
        elif k == 23:
            out.append('up %d %x' % (t, rng.randrange(2 ** shards)))
            out.append('handlers %d %x %x' % (t, rng.randrange(2 ** types), rng.randrange(2 ** types)))
        elif k == 24:
            out.append('block %d %d' % (t, u))
        elif k == 25:
            out.append('blockd %d %d %d %d' % (t, u, now, now + rng.randrange(10 ** 9)))
        elif k == 26:
            out.append('unblock %d %d' % (t, u))
        elif k == 27:
            out.append('isblocked %d %d %d' % (t, u, now))
        elif k == 28 and rules < 60:
            out.append('install x' + some_card(tills, types, now).hex())
            rules += 1
        elif k == 29 and rules:
            i = rng.randrange(rules)
            out.append(rng.choice(['remove %d', 'fired %d', 'setfired %d 18446744073709551615']) % i)
        elif k == 30:
            out.append('decide %d %d %d %d %d' % (t, u, rng.randrange(types), rng.randrange(4), now))
        elif k == 31:
            out.append('should %d %d %d %d' % (t, u, now, rng.choice([0, 1000, 65536])))
        elif k == 32:
            out.append('drain')
        elif k == 33:
            out.append(rng.choice(['waiting', 'next', 'words', 'rings', 'rules', 'blocks', 'tills', 'seen', 'seen %d' % t, 'transit %d' % t]))
        elif k == 34:
            out.append(rng.choice(['region %d' % t, 'link %d %d' % (t, u), 'transmission %d %d %d' % (t, u, rng.randrange(65537)), 'linkkey %d %d' % (t, u)]))
        elif k == 35:
            out.append('latency %s %d %d %d %d %d' % (some_key(), rng.randrange(2 ** 36), t, u, rng.randrange(65537), rng.randrange(1, 5)))
        elif k == 36 and rng.randrange(4) == 0:
            out.append('state')
    out.append('state')


def some_key():
    return bytes(rng.randrange(256) for _ in range(32)).hex()


# what needs no network
def leaves():
    for _ in range(40):
        at = rng.randrange(2 ** 36)
        out.append('draw word %s %d 5' % (some_key(), at))
        out.append('draw long %s %d 3' % (some_key(), at))
        out.append('draw fraction %s %d 3' % (some_key(), at))
        out.append('draw real %s %d %s %s 3' % (some_key(), at, bits(-rng.random()), bits(rng.random())))
        low = rng.choice([0, rng.randrange(2 ** 64)])
        out.append('draw whole %s %d %d %d 4' % (some_key(), at, low, rng.choice([low, LAST, rng.randrange(low, 2 ** 64)])))
        out.append('draw index %s %d %d 4' % (some_key(), at, rng.choice([1, 64, 2 ** 32 - 1, 2 ** 32, rng.randrange(1, 2 ** 50)])))
        out.append('wire %d %d' % (rng.choice([1, 10 ** 8, 10 ** 9, rng.randrange(1, 2 ** 40)]), rng.randrange(65537)))
        out.append('nanos %s' % bits(rng.choice([0.001, 0.5, 1.0, 59.999999999, rng.uniform(0.001, 100)])))
        out.append('secs %d' % rng.choice([0, 1, 10 ** 9, rng.randrange(2 ** 64)]))
        out.append('times %d %s' % (rng.randrange(10 ** 7, 10 ** 10), bits(rng.uniform(1, 50))))
        out.append('digest ' + some_bytes())
    out.append('digest 65700*5a')
    out.append('digest x')


def first_part():
    out.append('# Part 1: every call; the answers are the original Rust\'s.')
    out.append(opening(5, ['block', 'vote', ''], [b'\x00', b'\x01\x02'], [3, 1, 2, 3, 0], dup=0.4, rep=0.4, loss=0.1, spike=0.2))
    morning(5, 3, 2, 700)
    leaves()
    out.append('')
    out.append(opening(12, ['a', 'bb'], [], [0] * 12, log=0, regions='4:77', rep=0.5, dup=0.1, key=some_key()))
    morning(12, 2, 0, 300)
    out.append(opening(3, ['only'], [b'k'], [1, 1, 0], log=4096, jit=0.0, regions='0:1', loss=0.5, lat=0))
    morning(3, 1, 1, 400)
    out.append(opening(64, ['t%d' % i for i in range(16)], [bytes([i]) for i in range(16)], [(t * 2654435761) % 65536 for t in range(64)], log=16, jit=1.0, regions='16:9'))
    morning(64, 16, 16, 25)


# Part 2: what the original has no counterpart for, each line with its answer, worked out from document 01
def second_part():
    zero, one = bits(0.0), bits(1.0)

    def opens(tills=3, lat=1000000, jit=zero, loss=zero, dup=zero, regions='none', types='74', shards='6b', masks='1,1,1', log=2, more='', key='auto', seed='1'):
        return ('open tills=%s seed=%s fkey=%s log=%s lat=%s jit=%s loss=%s dup=%s rep=%s spike=%s regions=%s types=%s shards=%s masks=%s%s'
                % (tills, seed, key, log, lat, jit, loss, dup, zero, zero, regions, types, shards, masks, more))

    pairs = []
    say = lambda line, answer: pairs.append((line, answer))
    # openings: 2 sizes and names, 3 ranges, 5 masks
    for line in (opens(tills=65, masks=','.join('0' * 65)), opens(types=','.join('%02x' % i for i in range(17))), opens(types='74,74'), opens(shards='6b,6b'),
                 opens(types='61' * 65), opens(shards='61' * 17), opens(log=4097), opens(more=' slots=0'), opens(more=' slots=4097'), opens(more=' seen=0'),
                 opens(more=' seen=4097'), opens(regions='17:1'), opens(types='74,74', lat=60000000001)):
        say(line, 'open refused 2')
    for line in (opens(lat=60000000001), opens(loss=bits(1.5)), opens(dup='7ff8000000000000'), opens(jit=bits(2.0 ** -21)), opens(jit='bfb999999999999a'), opens(jit=bits(1.25), masks='2,1,1')):
        say(line, 'open refused 3')
    say(opens(masks='1,1,2'), 'open refused 5')
    # the network that was open before is still there
    say('tills', None)
    # bad lines: each is answered by its number
    for line in (opens(masks='1,1'), opens(seed='18446744073709551616'), opens(key='00'), opens(more=' slots='), opens(more=' more=1'), opens(more=' tills=3'), opens(jit='0'),
                 opens(types=''), opens(masks='1,,1'), opens(regions='4'), 'open', 'open tills=3', 'accept', 'accept 0 1 0 0 g x 1', 'accept 0 1 0 0 g x 1 1 1', 'accept 0 1 0 0 h x 1 1',
                 'accept 0 1 0 0 s x 1 1', 'accept 0 1 0 0 g x0 1 1', 'accept 0 1 0 0 g xzz 1 1', 'accept 0 1 0 0 g 3*1 1 1', 'accept 0 1 0 0 g 1 1 1', 'accept 0 1 0 0 g x 2 1',
                 'accept -1 1 0 0 g x 1 1', 'accept 0 18446744073709551616 0 0 g x 1 1', 'accept 0x0 1 0 0 g x 1 1', 'flush', 'flush 1 2 3', 'flush one', 'down', 'down 0 0', 'up 0', 'up 0 10000000000000000',
                 'up 0 g', 'blockd 0 1 2', 'seen 0 1', 'state 1', 'setwords fault', 'setwords 0 1', 'setseq', 'fly 1', 'accepts 0 1 0 0 g x 1 1', 'draw', 'draw byte', 'draw word 00 0 1', 'nanos 1'):
        say(line, 'err')
    say('accept 0 1 0 0 g x' + '0' * 140000 + ' 1 1', 'err')
    # lines that are skipped, and blanks
    say('', '')
    say('   # a remark', '')
    say('\t next \r', None)
    # a network of its own: 3 tills, latency 1 ms, no draws, 4 waiting slots, 2 seen slots
    say(opens(more=' slots=7 seen=2'), 'open ok')
    say('accept 3 1 0 0 g x 1 1', 'accept refused 4')
    say('accept 0 1 1 0 g x 1 1', 'accept refused 5')
    say('accept 0 1 0 8 g x 1 1', 'accept refused 5')
    say('accept 0 1 0 0 s1 x 1 1', 'accept refused 5')
    say('accept 0 1 0 0 s16 x 1 1', 'accept refused 5')
    say('accept 0 1 0 0 g 65537*00 1 1', 'accept refused 6')
    say('accept 0 1 0 0 g x' + '00' * 65537 + ' 1 1', 'accept refused 6')
    say('accept 0 1152921504606846977 0 0 g x 1 1', 'accept refused 7')
    say('accept 9 1152921504606846977 9 0 g 65537*00 1 1', 'accept refused 4')
    say('flush 1152921504606846977', 'flush refused 7')
    say('down 3', 'down refused 4')
    say('up 0 2', 'up refused 5')
    say('handlers 0 2 0', 'handlers refused 5')
    say('handlers 3 0 0', 'handlers refused 4')
    say('block 0 3', 'block refused 4')
    say('isblocked 3 0 1', 'isblocked refused 4')
    say('transit 3', 'transit refused 4')
    say('seen 3', 'seen refused 4')
    say('decide 0 3 0 0 1', 'decide refused 4')
    say('decide 0 1 1 0 1', 'decide refused 5')
    say('install x40', 'install refused 13')
    say('install x0804', 'install refused 13')
    say('install x01', 'install refused 13')
    say('digest 65701*00', 'digest refused 6')
    # 8: words spent, of the fault stream, of a link that is selected, of one that is not
    say('setwords fault 1099511627776', 'setwords ok')
    say('accept 0 1 0 0 g x 1 1', 'accept refused 8')
    say('setwords fault 0', 'setwords ok')
    say('setwords 0 2 1099511627776', 'setwords ok')
    say('accept 0 1 0 0 g x 1 1', 'accept refused 8')
    say('setwords 0 2 0', 'setwords ok')
    say('setwords 2 1 1099511627776', 'setwords ok')
    say('setwords 3 0 1', 'setwords refused 4')
    # 9: the sequence and 3 for each of two selected
    say('setseq 4294967290', 'setseq ok')
    say('accept 0 1 0 0 g x 1 1', 'accept refused 9')
    say('setseq 0', 'setseq ok')
    say('words', 'words fault=0\nword 2 1 1099511627776')
    # two sent; 14: no room for two rows
    say('accept 0 1 0 0 g x 1 1', None)
    say('flush 2000000 1', 'flush refused 14')
    say('accept 0 1 0 0 g x01 1 2', 'accept refused 11')
    say('flush 2000000 2', None)
    say('accept 0 1 0 0 g x01 1 2', None)
    say('flush 2000000', None)
    # 10: both seen slots of tills 1 and 2 are taken
    say('accept 0 1 0 0 g x02 1 3', 'accept refused 10')
    # 12: 64 rules, 256 windows, and rules ever installed
    for i in range(64):
        say('install x00', 'install id=%d' % i)
    say('install x00', 'install refused 12')
    say('install x01', 'install refused 12')
    say('remove 63', 'remove 1 fired=0')
    say('setrules 4294967295', 'setrules ok')
    say('install x00', 'install refused 12')
    say('setrules 4294967294', 'setrules ok')
    say('install x00', 'install id=4294967294')
    for i in range(256):
        say('blockd 0 1 5 8', 'blockd ok')
    say('block 0 1', 'block refused 12')
    say('unblock 0 1', 'unblock ok')
    say('blocks', 'blocks edges=0 windows=0')
    # 18 (document 02, M-110): an end at or before its start, of a block and of a card with bit 5
    say(opens(more=' slots=7 seen=2'), 'open ok')
    ids = closed = 0
    for start, end in ((5, 5), (5, 4), (5, 6), (LAST, LAST), (LAST, LAST - 1), (LAST - 1, LAST), (LAST, 0), (0, 0), (0, 1), (0, LAST), (LAST, 1), (1, LAST)):
        taken = start < end
        say('blockd 0 1 %d %d' % (start, end), 'blockd ok' if taken else 'blockd refused 18')
        say('install x' + card(window=(start, end)).hex(), 'install id=%d' % ids if taken else 'install refused 18')
        ids += taken
    say('blocks', 'blocks edges=1 windows=%d' % ids)
    say('rules', ' '.join(['rules %d' % ids] + ['%d:0' % i for i in range(ids)]))
    # bit 6 (M-111): a closed window is refused only where its end is before its start; bit 6 without bit 5, and bit 7, are not exact
    for start, end in ((5, 5), (5, 4), (5, 6), (LAST, LAST), (LAST, LAST - 1), (LAST, 0), (0, 0), (0, LAST)):
        taken = start <= end
        say('install x60' + card(window=(start, end))[1:].hex(), 'install id=%d' % ids if taken else 'install refused 18')
        say('install xe0' + card(window=(start, end))[1:].hex(), 'install refused 13')
        closed += taken
        ids += taken
    say('install x40', 'install refused 13')
    say('install x4100', 'install refused 13')
    say('install x60' + card(window=(5, 8))[1:].hex() + '00', 'install refused 13')
    # after 4 and 12, after 13; not asked of a card without bit 5
    turned = card(window=(8, 5))
    say('blockd 0 3 8 5', 'blockd refused 4')
    say('install x' + turned.hex() + '00', 'install refused 13')
    say('install x' + turned[:-1].hex(), 'install refused 13')
    say('install xa0' + turned[1:].hex(), 'install refused 13')
    say('install x' + card(tier=4, window=(8, 5)).hex(), 'install refused 13')
    say('install x' + card(kind=0, frm=1, to=2, tier=3, probability=0.5, window=(8, 5)).hex(), 'install refused 18')
    say('install x00', 'install id=%d' % ids)
    say('install x' + card(kind=0).hex(), 'install id=%d' % (ids + 1))
    say('setrules 4294967295', 'setrules ok')
    say('install x' + turned.hex(), 'install refused 12')
    for i in range(256 - (ids - closed)):
        say('block 0 1', 'block ok')
    say('blockd 0 1 8 5', 'blockd refused 12')
    say('blocks', 'blocks edges=1 windows=256')
    # the largest entry goes through: two copies, as text and as a fill
    say(opens(more=' slots=4096 seen=4096'), 'open ok')
    say('accept 0 1 0 0 g x' + '5a' * 65536 + ' 1 1', None)
    say('accept 0 1 0 0 g 65536*5a 1 1', None)
    # document 01's edges: with 4,096 slots and 4,090 waiting, two selected fit and three give 11
    say(opening(64, ['a'], [b'\x00', b'\x01'], [3, 3, 3, 2] + [0] * 60), 'open ok')
    for i in range(62):
        say('accept 0 1 0 0 g x%04x 1 %d' % (i, i), None)
    for i in range(92):
        say('accept 0 1 0 0 s0 x%04x 1 %d' % (i, i), None)
    say('accept 0 1 0 0 s1 xffff 1 1', 'accept refused 11')
    say('accept 0 1 0 0 s0 xffff 1 1', None)
    # a flush that drops every copy, behind a reading that put the same copies into the output
    say(opening(3, ['a'], [], [0, 0, 0]), 'open ok')
    for line in ('accept 0 1 0 0 g x01 1 1', 'waiting', 'down 1', 'down 2', 'flush 1000000000', 'waiting'):
        say(line, None)
    # probability 0 takes a draw and passes, 1 takes a draw and drops
    say('install x' + card(probability=0.0).hex(), None)
    say('decide 0 1 0 0 1', None)
    say('install x' + card(probability=1.0).hex(), None)
    say('decide 0 1 0 0 1', None)
    # document 02, M-101: every copy has a duplicate, and in transit counts the originals; a copy on its way to a till that goes down stays
    say(opens(dup=one), 'open ok')
    for line, answer in (('accept 0 1 0 0 g x01 1 1', None), ('waiting', None), ('transit 0', 'transit 0'), ('transit 1', 'transit 1'), ('transit 2', 'transit 1'), ('down 1', None), ('transit 1', 'transit 1'),
                         ('up 1 1', None), ('accept 0 2 0 0 g x01 1 1', None), ('transit 1', 'transit 2'), ('flush 1000001', None), ('transit 1', 'transit 1'), ('transit 2', 'transit 0'),
                         ('flush 2000000', None), ('transit 1', 'transit 0')):
        say(line, answer)
    return pairs


def printed(command, given):
    return subprocess.run(command, input=given, capture_output=True, text=True, check=True).stdout


def answers(oracle, lines):
    return printed([oracle], '\n'.join(lines) + '\n')


def main():
    oracle = ' '.join(sys.argv[1:])
    if not os.access(oracle, os.X_OK):
        sys.exit('make.py ANSWERS: there is no program %s; bench/oracle/build.sh makes it from the original Rust' % (oracle or 'named'))
    first_part()
    told = answers(oracle, out)
    pairs = second_part()
    # None: the oracle answers it, on the lines so far that it knows
    lines, said, script = list(out), [], list(out)
    script.append('# Part 2: refusals and bad lines; the answers are worked out from document 01 in make.py, but those that the original gives.')
    for line, answer in pairs:
        script.append(line)
        if answer is None:
            before = answers(oracle, lines)
            lines.append(line)
            said.append(answers(oracle, lines)[len(before):])
        elif answer == 'err':
            said.append('err %d\n' % len(script))
        elif answer:
            said.append(answer + '\n')
            if line.startswith('open') and answer == 'open ok':
                lines = [line]
    for part, name in ((3, 'faults.py'), (4, 'delays.py'), (5, 'marks.py')):
        more = printed([sys.executable, os.path.join(HERE, name)], '')
        script.append('# Part %d: by %s; the answers are the original\'s.' % (part, name))
        script += more.splitlines()
        said.append(printed([oracle], more))
    more = printed([sys.executable, os.path.join(HERE, 'closed.py')], '')
    script.append('# Part 6: by closed.py; the answers are those of the book in Python, bench/oracle/book.')
    script += more.splitlines()
    said.append(printed([sys.executable, BOOK, 'answers'], more))
    with open(os.path.join(HERE, 'stdin'), 'w') as f:
        f.write('\n'.join(script) + '\n')
    with open(os.path.join(HERE, 'stdout'), 'w') as f:
        f.write(told + ''.join(said))


main()
