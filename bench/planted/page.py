"""The page of an audit, counted from a recording's lines and the book's own answers to its calls: what `simulate audit` is to print.
No line of it comes from the program under test."""
from book import Book

WIDE, LABEL, COLUMN, FIGURE, SHOWN, MOST, WORDS = 48, 14, 17, 20, 36, 20, 8
FIELDS = ('answer', 'from', 'to', 'type', 'class', 'sent', 'delivered', 'shard', 'bytes', 'sequence', 'id', 'tag', 'handlers')
ADDED = (' time=', ' kind=', ' more=')


def blocks(lines):
    """The recording's calls: line, call, its answers."""
    told = []
    for n, line in enumerate(lines, 1):
        if line.startswith('>'):
            told.append((n, line[1:], []))
        elif line.strip() and not line.startswith('#'):
            told[-1][2].append(line.rstrip(' \t\r'))
    return told


def answers(book, call, number):
    """The book after a call, and its answers; a line that is no call is answered by its number among the calls."""
    if call.split()[0] == 'open':
        return Book(call.strip()), ['open ok']
    try:
        return book, book.answer(call.strip())
    except (AttributeError, KeyError, IndexError, ValueError, TypeError):
        return book, [f'err {number}']


def plain(line):
    return line[:min([line.find(a) for a in ADDED if a in line] + [len(line)])]


def value(word):
    return '-' if not word else word.split('=', 1)[1] if '=' in word[1:] else word


def label(line, word, k):
    if '=' in word[1:]:
        return '  ' + word.split('=', 1)[0]
    if line.split()[0] in ('row', 'drop', 'copy', 'record'):
        return '  ' + (FIELDS[k] if k < len(FIELDS) else FIELDS[0])
    return '  word %3d' % k


def number(word):
    return int(word.split('=', 1)[-1]) if word.split('=', 1)[-1].isdigit() else 0


class Figures:
    """What one side's answers add up to, from the lines alone."""

    def __init__(self):
        self.five, self.landed, self.dropped, self.waits, self.said = [0] * 5, [0, 0], [0, 0], [0, 0], [0] * 3
        self.late = self.put_off = self.to_sender = self.marks = self.transit = 0
        self.last, self.now, self.before = (0, 0), 0, 0
        self.classes, self.tallies = [0] * 16, [0] * 16
        self.tills, self.links = [[0] * 8 for _ in range(64)], {}

    def note(self, line, call):
        w = line.split()
        if w[0] == 'accept' and w[1] != 'refused':
            for k in range(5):
                self.five[k] += number(w[1 + k])
                self.tills[int(call[1])][k] += number(w[1 + k])
        elif w[0] == 'flush' and w[1] != 'refused':
            self.before, self.now, self.last = self.now, int(call[1]), (0, 0)
            self.said = [n + number(x) for n, x in zip(self.said, w[1:4])]
        elif w[0] in ('row', 'drop'):
            self.moved(w)
        elif w[0] == 'copy':
            self.waits[w[10] == '-'] += 1
        elif w[0] == 'seen':
            self.marks += number(w[2])
        elif w[0] == 'transit':
            self.transit += number(w[1])
        elif w[0] == 'drain':
            for k, n in enumerate(w[3].split('=')[1].replace(':', ',').split(',')):
                self.tallies[k] += int(n)
        elif w[0] == 'open':
            self.now = 0

    def moved(self, w):
        sender, to, cls, time, size, sequence, echo = int(w[1]), int(w[2]), int(w[4]), int(w[6]), int(w[8]), int(w[9]), w[10] == '-'
        self.to_sender += sender == to
        if w[0] == 'drop':
            self.dropped[echo] += 1
            self.tills[to][7] += 1
            self.links[sender, to] = self.links.get((sender, to), 0) + 1
            return
        self.landed[echo] += 1
        self.tills[to][5 + echo] += 1
        self.late += (time, sequence) <= self.last
        self.put_off += time <= self.before
        self.last = time, sequence
        self.classes[2 * cls] += 1
        self.classes[2 * cls + 1] += size


class Audit:
    def __init__(self):
        self.told, self.own = Figures(), Figures()
        self.page, self.lines, self.calls, self.answers, self.bad, self.differ, self.first = [], 0, 0, 0, 0, 0, 0

    def differs(self, line, call, told):
        self.differ += 1
        self.first = self.first or line
        if self.differ == 1:
            self.page.append('DIFFERENCES'.ljust(LABEL) + 'recorded'.rjust(COLUMN) + 'by the book'.rjust(COLUMN))
        if self.differ <= MOST:
            self.page += [f'line {line}:' + call[:SHOWN]] + told

    def other(self, recorded, own):
        told, a, b = [], recorded.split(), own.split()
        for k in range(max(len(a), len(b))):
            r, s = a[k] if k < len(a) else '', b[k] if k < len(b) else ''
            if r != s and len(told) < WORDS:
                told.append(label(own, s, k).ljust(LABEL) + ' ' + value(r).rjust(COLUMN - 1) + ' ' + value(s).rjust(COLUMN - 1))
        return told

    def call(self, line, call, recorded, own):
        self.calls += not own[0].startswith('err ')
        for k, told in enumerate(recorded):
            self.answers += 1
            if k >= len(own):
                self.differs(line, call, ['  recorded alone:', '  ' + told[:WIDE - 2]])
            elif told not in (own[k], plain(own[k])):
                self.differs(line, call, self.other(told, own[k]))
        for told in own[len(recorded):]:
            self.differs(line, call, ['  by the book alone:', '  ' + told[:WIDE - 2]])
        self.bad += own[0].startswith('err ')
        for told in recorded:
            self.told.note(told, call.split())
        for told in own:
            self.own.note(told, call.split())

    def pair(self, what, a, b, always=True):
        if always or a or b:
            self.page.append(what.ljust(20) + str(a).rjust(13) + str(b).rjust(13) + ' !' * (a != b))

    def figures(self):
        a, b = self.told, self.own
        self.page += ['', 'recorded'.rjust(33) + 'by the book'.rjust(13), "A. RECIPIENTS, BY ACCEPT'S ANSWERS"]
        for k, what in enumerate(('sent', 'deduplicated', 'partition', 'loss', 'fault rule')):
            self.pair(what, a.five[k], b.five[k])
        self.pair('to their own sender', a.to_sender, b.to_sender)
        self.page.append('B. SEEN MARKS, AS READ')
        self.pair('marks', a.marks, b.marks)
        self.page.append('C. DROPS BY FLUSHES')
        for k, what in enumerate(('originals', 'echoes')):
            self.pair(what, a.dropped[k], b.dropped[k])
        for link in sorted({*a.links, *b.links}):
            self.pair('from%3d to%3d' % link, a.links.get(link, 0), b.links.get(link, 0))
        self.page.append('D. COPIES')
        for what, of in (('landed', 'landed'), ('as waiting', 'waits')):
            for k, kind in enumerate(('originals', 'echoes')):
                self.pair(f'{kind} {what}', getattr(a, of)[k], getattr(b, of)[k])
        self.pair('in transit, as read', a.transit, b.transit)
        for k, what in enumerate(('delivered', 'dropped', 'rows')):
            self.pair(what + ', as said', a.said[k], b.said[k])
        self.page.append('E. DELIVERY ORDER AND CLASS TALLIES')
        self.pair('rows out of order', a.late, b.late)
        self.pair('due a flush before', a.put_off, b.put_off)
        for k in range(8):
            for what, of, j in (('class%3d rows', 'classes', 0), ('class%3d bytes', 'classes', 1), ('tally%3d deliveries', 'tallies', 0), ('tally%3d bytes', 'tallies', 1)):
                self.pair(what % k, getattr(a, of)[2 * k + j], getattr(b, of)[2 * k + j], False)
        self.page.append('F. CLOSING SLIPS, BY TILL')
        for t in range(64):
            for k, what in enumerate(('sent', 'deduplicated', 'partition', 'loss', 'fault rule', 'received', 'had echoes', 'lost to it')):
                self.pair('till%3d ' % t + what, a.tills[t][k], b.tills[t][k], False)

    def line(self, what, n):
        self.page.append(what.ljust(WIDE - FIGURE) + str(n).rjust(FIGURE))

    def end(self, lines):
        self.figures()
        self.page += ['', 'AUDIT OF A RECORDED RUN']
        self.line('lines of the recording', lines)
        self.line('calls played', self.calls)
        self.line('answers compared', self.answers)
        self.line('lines that are no call', self.bad)
        self.line('differences', self.differ)
        if self.first:
            self.line('the first: call at line', self.first)
        self.page.append('PASS' if self.calls and not self.differ and not self.bad else 'FAIL')
        return self.page


def audited(lines):
    """The page's lines. The reading of a file ends with a line without bytes."""
    audit, book, number = Audit(), None, 0
    for n, call, recorded in blocks(lines):
        number += 1
        book, own = answers(book, call, number)
        audit.call(n, call, recorded, own)
    return audit.end(len(lines) + 1)
