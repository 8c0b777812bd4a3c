#!/usr/bin/env python3
"""planted.py [ERROR] <SCRIPT: a recording of the script's run as a network with that error would make it, each call behind `> ` and then its answers.
Without an error it is the book's own. planted.py --list names the errors.
The bookkeeper is document 01's book of bench/oracle/book, kept from the paper's text alone; no line of it comes from the program under test."""
import pathlib
import sys

sys.dont_write_bytecode = True
sys.path.insert(0, str(pathlib.Path(__file__).resolve().parent.parent / 'oracle/book'))
import wrong as errors
from book import COUNTS, Book, bytes_of
from digest import number_of

# The errors by name, and what each network does wrong. The second word is an error that the book has a place for itself.
ERRORS = {
    'mark_kept': ('a flush drop keeps its mark', 'mark kept at a flush drop'),
    'mark_early': ('the mark is set before the rules pass', 'mark before the rules'),
    'mark_at_loss': ('a lost copy sets its mark', None),
    'partition_as_loss': ('a recipient behind a block or a down till is booked as loss', None),
    'fault_as_loss': ("a rule's drop is booked as loss", None),
    'loss_as_partition': ('a loss is booked as partition', None),
    'left_out': ('the last recipient is left out', None),
    'sender_counted': ('the sender is a recipient too', None),
    'sender_for_last': ('the sender is counted in place of the last recipient', None),
    'echo_as_first': ('an echo carries the id of a first message', None),
    'copy_lost': ('one due copy is neither a row nor a drop', None),
    'copy_twice': ('one due copy lands twice', None),
    'by_sequence': ('a flush goes by sequence alone', None),
    'put_off': ('one due copy lands with the next flush', None),
    'tally_by_receiver': ("tallies are kept by the receiver's number, not by the class", None),
    'block_at_now': ("a block is tested at the flush's now", "block at the flush's now"),
    'ring_holds_it': ('a replay from a ring that holds the message already', 'ring holds the message already'),
    'transit_with_echoes': ('in transit counts echoes', None),
    'loss_drawn': ('loss is drawn at rate 0', 'loss drawn at rate 0'),
    'marks_at_down': ('a take-down keeps the marks', 'marks kept by take-down'),
    'queue_at_down': ('a take-down empties the queue', 'waiting gone with take-down'),
    'one_window': ('unblock takes one window away', 'one window unblocked'),
    'late_draw': ('the latency is drawn after the rules', 'latency after the rules'),
}


class Planted(Book):
    """The book, with one error."""

    def __init__(self, line, error):
        super().__init__(line)
        self.error, self.done, self.later = error, False, []

    def once(self, error, fits):
        """The error's one occasion: the first that fits."""
        if self.error != error or self.done or not fits:
            return False
        self.done = True
        return True

    # ---- accept

    def recipients(self, sender, shard):
        of = [t for t, till in enumerate(self.tills) if shard is None or till.shards >> shard & 1]
        chosen = [t for t in of if t != sender]
        if self.error in ('left_out', 'sender_for_last') and len(chosen) > 1:
            chosen.pop()
        if self.error in ('sender_counted', 'sender_for_last') and sender in of:
            chosen = sorted(chosen + [sender])
        return chosen

    def accept(self, sender, now, kind, cls, to, wire, opens, tag):
        sender, now, kind, wire = int(sender), int(now), int(kind), bytes_of(wire)
        shard = None if to == 'g' else int(to[1:])
        scope = b'\0' if shard is None else b'\1' + self.keys[shard]
        mark, counts = number_of(self.names[kind] + scope + wire), dict.fromkeys(COUNTS, 0)
        for t in self.recipients(sender, shard) if opens == '1' else []:
            counts[self.offer((sender, t), kind, (int(cls), len(wire), int(tag)), shard, mark, now)] += 1
        said = ' '.join(f'{k}={counts[k]}' for k in COUNTS)
        return [f'accept {said} id={mark:016x} sequence={self.sequence} waiting={len(self.waiting)}']

    def offer(self, ends, kind, message, shard, mark, now):
        first = self.sequence
        cause = super().offer(ends, kind, message, shard, mark, now)
        if cause == 'loss' and self.error == 'mark_at_loss':
            self.tills[ends[1]].marks.add(mark)
        if self.error == 'echo_as_first':
            for c in self.waiting:
                if c.sequence > first:
                    c.mark = (ends[1], mark)
        booked = {'partition_as_loss': ('partition', 'loss'), 'fault_as_loss': ('fault', 'loss'), 'loss_as_partition': ('loss', 'partition')}
        return booked[self.error][1] if self.error in booked and booked[self.error][0] == cause else cause

    # ---- flush

    def in_order(self):
        return sorted(self.waiting, key=lambda c: c.sequence) if self.error == 'by_sequence' else super().in_order()

    def flush(self, now):
        due = [c for c in self.in_order() if c.time <= now]
        late, self.later = self.later, []
        if self.once('copy_lost', len(due) > 2):
            self.waiting.remove(due[1])
        if self.once('put_off', len(due) > 2):
            self.later = [due[1]]
            self.waiting.remove(due[1])
        self.waiting += late
        told = super().flush(now)
        rows = [k for k, line in enumerate(told) if line.startswith('row ')]
        if self.once('copy_twice', len(rows) > 2):
            told.insert(rows[1], told[rows[1]])
            told[0] = f'flush delivered={sum(not l.endswith(" -") for l in told if l.startswith("row "))} dropped={len(told) - len(rows) - 2} rows={len(rows) + 1}'
        return told

    def answer(self, line):
        w = line.split()
        if w[0] == 'transit' and self.error == 'transit_with_echoes':
            return [f'transit {sum(c.ends[1] == int(w[1]) for c in self.waiting)}']
        if w[0] == 'open':
            raise ValueError(line)
        return super().answer(line)


class Receiver:
    """A log whose tallies go by the receiver."""

    def __init__(self, log):
        self.log = log

    def take(self, copy, handled):
        real, copy.cls = copy.cls, copy.ends[1] % 8
        before = list(self.log.records)
        self.log.take(copy, handled)
        copy.cls = real
        if self.log.capacity:
            self.log.records = (before + [copy.record()])[-self.log.capacity:]

    def drain(self):
        return self.log.drain()


def recording(lines, error=None):
    """The recording's lines: each call behind `> `, then its answers."""
    errors.choose(error and ERRORS[error][1])
    told, book = [], None
    for line in lines:
        if not line.strip() or line.startswith('#'):
            continue
        told.append('> ' + line)
        if line.startswith('open '):
            book = Planted(line, error)
            if error == 'tally_by_receiver':
                book.log = Receiver(book.log)
            told.append('open ok')
        else:
            told += book.answer(line)
    errors.choose(None)
    return told


def main():
    if sys.argv[1:] == ['--list']:
        for name, (what, _) in ERRORS.items():
            print(f'{name:22} {what}')
        return
    error = sys.argv[1] if len(sys.argv) > 1 else None
    if error and error not in ERRORS:
        sys.exit(__doc__)
    print('\n'.join(recording(sys.stdin.read().splitlines(), error)))


if __name__ == '__main__':
    main()
