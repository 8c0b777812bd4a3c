#!/usr/bin/env python3
# check.py ORACLE [--write]: the expected output of each script, made from the answers of the original Rust (the oracle's program) and a count of its
# own over them, and never from the program under test. Without --write it compares with the file stdout of simulate_scenarios.
# check.py --program PROGRAM: what the program writes for each script on its standard input, against the same file.
# Marks are read by `seen` lines put behind every call, waiting copies and tallies by `waiting` and `drain` at the end.
import pathlib, re, subprocess, sys
PROGRAM = pathlib.Path(__file__).parent.parent / 'crates/simulate_scenarios'
HEAD = 'RUN OF '
WIDE, LABEL = 48, 28
MOST_WORDS, LAST = 2 ** 40, 2 ** 32 - 1


def oracle(program, lines, *words):
    return subprocess.run([program, *words], input='\n'.join(lines) + '\n', capture_output=True, text=True, check=True).stdout


def fields(line):
    return dict(w.split('=', 1) for w in line.split() if '=' in w)


# The counters that a script sets by hand, which the original does not have: what is answered to such a line and to a call that a counter refuses
# (document 01, questions 8, 9 and 12); nothing where the original answers.
class Counters:
    def __init__(c, tills):
        c.tills, c.fault, c.rules, c.sequence, c.links = tills, 0, 0, 0, {}

    def answer(c, line):
        w = line.split()
        if w[0] == 'setseq':
            c.sequence = int(w[1])
        elif w[0] == 'setrules':
            c.rules = int(w[1])
        elif w[0] == 'setwords' and w[1] == 'fault':
            c.fault = int(w[2])
        elif w[0] == 'setwords':
            c.links[int(w[1]), int(w[2])] = int(w[3])
        elif w[0] == 'accept':
            return c.accept(int(w[1]), w[5])
        elif w[0] == 'install' and c.rules >= LAST:
            return 'install refused 12'
        else:
            return None
        return w[0] + ' ok'

    def accept(c, me, scope):
        others = [t for t in range(c.tills) if t != me]
        spent = max([c.fault] + [c.links.get((me, t), 0) for t in others]) >= MOST_WORDS
        passes = c.sequence + 3 * len(others) > LAST
        assert scope == 'g' or not (spent or passes)
        return 'accept refused 8' if spent else 'accept refused 9' if passes else None


# The sequences of the answers as they are where `setseq` sets the counter: a copy's is that of the original, moved by the last jump before it was
# scheduled. Due and waiting copies stand by time, then sequence; equal ones as they were scheduled.
class Sequences:
    def __init__(s):
        s.last, s.jump, s.given = 0, 0, {}

    def told(s, line, own):
        w = line.split()
        if w[0] == 'setseq':
            s.jump = int(w[1]) - s.last
        if w[0] == 'accept' and 'refused' not in own[0]:
            last = int(fields(own[0])['sequence'])
            s.given.update((q, q + s.jump) for q in range(s.last + 1, last + 1))
            s.last = last
            return [re.sub(r'sequence=\d+', f'sequence={last + s.jump}', own[0])]
        if w[0] in ('flush', 'waiting') and s.jump:
            return own[:1] + s.copies(own[1:])
        return own

    def copies(s, lines):
        words = [l.split() for l in lines]
        for w in words:
            w[9] = str(s.given[int(w[9])])
        return [' '.join(w) for w in sorted(words, key=lambda w: (int(w[6]), int(w[9])))]


# each line of the script with its own answer lines and the marks of each till behind it
def calls(program, lines):
    script = [l for l in lines if l.strip() and not l.startswith('#')]
    tills = int(fields(script[0])['tills'])
    counters, sequences = Counters(tills), Sequences()
    fixed = [counters.answer(l) for l in script]
    marked = []
    for l, answer in zip(script, fixed):
        marked += [] if answer else [l, 'seen', 'fired 0']
    out = oracle(program, marked + ['waiting', 'drain']).splitlines()
    at, got, marks, told = 0, [], [0] * tills, []
    for l, answer in zip(script, fixed):
        own = [answer]
        if not answer:
            end = next(k for k in range(at, len(out)) if out[k].startswith('fired ') and out[k - 1].startswith('seen ') and not (l.startswith('fired') and k == at))
            part = out[at:end]
            own, seen = part[:-tills], part[-tills:]
            assert all(s.startswith('seen ') for s in seen)
            at, marks = end + 1, [int(s.split()[2]) for s in seen]
            told += own
        got.append((l, sequences.told(l, own), marks))
    assert told == oracle(program, [l for l, answer in zip(script, fixed) if not answer]).splitlines()
    end = next(k for k in range(at, len(out)) if out[k].startswith('drain '))
    return got, sequences.told('waiting', out[at:end]) + out[end:]


class Count:
    def __init__(c, line):
        f = fields(line)
        c.tills, c.log = int(f['tills']), int(f['log'])
        c.mask = [int(m, 16) for m in f['masks'].split(',')]
        c.accepts = c.flushes = c.recipients = c.sequence = 0
        c.refused = {}
        c.five = dict(sent=0, dedup=0, partition=0, loss=0, fault=0)
        c.till = [dict(sent=0, dedup=0, partition=0, loss=0, fault=0, got=0, lost_to=0, lost_from=0, transit=0) for _ in range(c.tills)]
        c.down = c.gone = c.standing = c.handled = c.late = 0
        c.said = dict(rows=0, delivered=0, dropped=0)
        c.rows, c.drops, c.waits = [0, 0], [0, 0], [0, 0]
        c.kept = [[0, 0] for _ in range(8)]
        c.tally = [[0, 0] for _ in range(8)]

    def call(c, line, own, before, after):
        w = line.split()
        m = re.match(r'\S+ refused (\d+)$', own[0]) if own else None
        if m:
            c.refused[int(m[1])] = c.refused.get(int(m[1]), 0) + 1
        elif w[0] == 'accept':
            c.accept(w, fields(own[0]))
        elif w[0] == 'flush':
            c.flush(own, sum(before) - sum(after))
        elif w[0] == 'down':
            c.mask[int(w[1])] = 0
            c.down += sum(before) - sum(after)
        elif w[0] == 'up':
            c.mask[int(w[1])] = int(w[2], 16)
        elif w[0] == 'drain':
            c.drained(own[0])
        c.standing = sum(after)

    def accept(c, w, f):
        me, shard = int(w[1]), None if w[5] == 'g' else int(w[5][1:])
        c.accepts += 1
        if w[7] == '1':
            c.recipients += sum(1 for t in range(c.tills) if t != me and (shard is None or c.mask[t] >> shard & 1))
        for k in c.five:
            c.five[k] += int(f[k])
            c.till[me][k] += int(f[k])
        c.sequence = int(f['sequence'])

    def flush(c, own, gone):
        c.flushes += 1
        c.gone += gone
        f = fields(own[0])
        for k in c.said:
            c.said[k] += int(f[k])
        last = (-1, -1)
        for line in own[1:]:
            r = line.split()
            me, to, cls, time, wire, sequence, echo = int(r[1]), int(r[2]), int(r[4]), int(r[6]), int(r[8]), int(r[9]), int(r[10] == '-')
            if r[0] == 'drop':
                c.drops[echo] += 1
                c.till[to]['lost_to'] += 1
                c.till[me]['lost_from'] += 1
                continue
            c.rows[echo] += 1
            c.till[to]['got'] += 1
            c.handled += r[12] != '-'
            c.late += (time, sequence) <= last
            last = (time, sequence)
            c.kept[cls][0] += 1
            c.kept[cls][1] += wire

    def drained(c, line):
        for k, pair in enumerate(fields(line)['tallies'].split(',')):
            d, b = pair.split(':')
            c.tally[k][0] += int(d)
            c.tally[k][1] += int(b)

    def end(c, rest):
        for line in rest:
            r = line.split()
            if r[0] == 'copy':
                c.waits[r[10] == '-'] += 1
                c.till[int(r[2])]['transit'] += r[10] != '-'
            if r[0] == 'drain':
                c.drained(line)

    # ---- the page

    def line(c, what, n):
        c.page.append(what.ljust(LABEL) + str(n).rjust(WIDE - LABEL))

    def verdict(c, same):
        c.differ += not same
        return 'agrees' if same else 'DIFFERS'

    def pair(c, what, n, other, m, same=None):
        c.line('= ' + what, n)
        c.line('= ' + other, m)
        c.page.append(c.verdict(n == m if same is None else same).rjust(WIDE))

    def table(c, name, numbers, width=11):
        c.page.append(name + ''.join(str(n).rjust(width) for n in numbers))

    def print(c):
        c.page, c.differ = [], 0
        five = list(c.five.values())
        page = c.page
        page += ['', 'A. RECIPIENTS, BY THE ANSWERS OF ACCEPT']
        for what, n in zip(('sent', 'deduplicated', 'partition', 'loss', 'fault rule'), five):
            c.line(what, n)
        c.pair('the five together', sum(five), 'recipients by the masks', c.recipients)
        page += ['', 'B. SEEN MARKS']
        c.line('set by sent originals', five[0])
        c.line('gone with take-downs', c.down)
        c.line('gone with flush drops', c.gone)
        c.pair('so these should stand', five[0] - c.down - c.gone, 'standing in the tables', c.standing)
        c.pair('gone with flush drops', c.gone, 'at most: originals dropped', c.drops[0], c.gone <= c.drops[0])
        page += ['', 'C. DROPS BY CAUSE']
        for what, n in zip(('partition', 'loss', 'fault rule'), five[2:]):
            c.line(what, n)
        c.pair('dropped at accept', sum(five[2:]), 'recipients - dedup. - sent', c.recipients - five[1] - five[0])
        c.pair('copies dropped by flushes', sum(c.drops), "by the flushes' own counts", c.said['dropped'])
        page += ['drops by the till that sent', 'till  partition       loss      fault      flush']
        cols = [[t[k] for k in ('partition', 'loss', 'fault', 'lost_from')] for t in c.till]
        for t, row in enumerate(cols):
            c.table(str(t).rjust(4), row)
        sums, whole = [sum(x) for x in zip(*cols)], five[2:] + [sum(c.drops)]
        c.table('=sum', sums)
        c.table('=all', whole)
        page.append(c.verdict(sums == whole).rjust(WIDE))
        page += ['', 'D. COPIES: WAITING, LANDED, DROPPED BY A FLUSH', '               originals      echoes         all']
        together = [a + b + d for a, b, d in zip(c.waits, c.rows, c.drops)]
        for what, n in (('waiting', c.waits), ('landed', c.rows), ('dropped', c.drops), ('= together', together)):
            c.table(what.ljust(12), n + [sum(n)], 12)
        planned = [five[0], max(c.sequence - five[0], 0), c.sequence]
        c.table('= scheduled '.ljust(12), planned, 12)
        page.append(' ' * 12 + ''.join(c.verdict(a == b).rjust(12) for a, b in zip(together + [sum(together)], planned)))
        page += ['scheduled: originals as sent, all by the', 'sequences given, echoes what is left']
        c.pair('in transit, all slips', sum(t['transit'] for t in c.till), 'originals that wait', c.waits[0])
        page += ['', 'E. DELIVERY ORDER AND CLASS TALLIES']
        c.pair('rows', sum(c.rows), "by the flushes' own counts", c.said['rows'])
        c.pair('rows out of order', c.late, 'there should be', 0)
        c.pair('rows with a handler', c.handled, "delivered, flushes' counts", c.said['delivered'])
        for what, k in (('deliveries by class', 0), ('wire bytes by class', 1)):
            page.append(what)
            if not c.log:
                page.append('no log'.rjust(WIDE))
                continue
            page.append('class               = rows                 = log')
            for cls in range(8):
                n, m = c.kept[cls][k], c.tally[cls][k]
                if n or m:
                    page.append(str(cls).rjust(5) + str(n).rjust(21) + str(m).rjust(22))
            page.append(c.verdict(all(n[k] == m[k] for n, m in zip(c.kept, c.tally))).rjust(WIDE))
        return c.head() + page + c.slips()

    def head(c):
        page, c.page = c.page, ['', 'CHECKLIST OF THE RUN']
        c.line('tills', c.tills)
        c.line('messages accepted', c.accepts)
        c.line('flushes', c.flushes)
        c.line('calls refused', sum(c.refused.values()))
        for number in sorted(c.refused):
            c.page.append('  by question ' + str(number).rjust(2) + str(c.refused[number]).rjust(32))
        c.line('comparisons that differ', c.differ)
        head, c.page = c.page, page
        return head

    def slips(c):
        c.page = ['', 'CLOSING SLIPS: S as sender, R as receiver']
        names = (('S sent', 'sent'), ('S deduplicated', 'dedup'), ('S dropped by partition', 'partition'), ('S dropped by loss', 'loss'),
                 ('S dropped by a fault rule', 'fault'), ('R received', 'got'), ('R dropped by a flush', 'lost_to'), ('R in transit', 'transit'))
        for t, row in enumerate(c.till):
            c.page.append('')
            c.line('TILL', t)
            for what, k in names:
                c.line(what, row[k])
        return c.page


# the answers to a script, and its page
def expected(program, lines):
    got, rest = calls(program, lines)
    answers = [a for _, own, _ in got for a in own]
    assert not any(a.startswith('err') for a in answers)
    c, before = Count(got[0][0]), [0] * 64
    for line, own, after in got:
        c.call(line, own, before, after)
        before = after
    c.end(rest)
    page = c.print()
    assert all(len(p) <= WIDE for p in page)
    return '\n'.join(answers + page) + '\n'


# the parts of the file stdout, by the name above each
def parts():
    text = '\n' + (PROGRAM / 'stdout').read_text() if (PROGRAM / 'stdout').exists() else ''
    return {p.split('\n', 1)[0]: p.split('\n', 1)[1] for p in text.split('\n' + HEAD)[1:]}


def main():
    own, program, write = sys.argv[1] == '--program', sys.argv[-1] if sys.argv[1] == '--program' else sys.argv[1], '--write' in sys.argv
    names, made = (PROGRAM / 'args').read_text().split()[1:], {}
    for name in names:
        path = PROGRAM / 'data' / (name if name.endswith('.script') else name + '.script')
        lines = path.read_text().splitlines()
        made[name] = oracle(program, lines, 'checklist') if own else expected(program, lines)
    if write:
        (PROGRAM / 'stdout').write_text(''.join(HEAD + name + '\n' + made[name] for name in names))
    was = {name: text + ('' if name == names[-1] else '\n') for name, text in parts().items()}
    for name in names:
        print(name, 'as expected' if was.get(name) == made[name] else 'DIFFERS')
    sys.exit(was != made)


main()
