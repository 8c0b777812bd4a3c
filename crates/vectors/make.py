#!/usr/bin/env python3
"""Writes the file stdout of this crate from outside answers: make.py ANSWERS

ANSWERS is the program `answers` that bench/oracle/build.sh makes. BLAKE3 answers come from b3sum, words and 64-bit draws
from Debian's rand_chacha and link keys from the original Rust (both through ANSWERS). The lists are read from src/main.rt.
"""
import os, re, subprocess, sys

if len(sys.argv) != 2 or not os.access(sys.argv[1], os.X_OK):
    sys.exit('make.py ANSWERS: there is no such program; bench/oracle/build.sh makes it from the original Rust')
here = os.path.dirname(os.path.abspath(__file__))
source = open(os.path.join(here, 'src/main.rt')).read()


def numbers(name):
    text = re.search(r'const %s: \[\w+; \d+\] = \[(.*?)\];' % name, source, re.S).group(1)
    return [int(n) for n in re.findall(r'\d+', text)]


def b3sum(n):
    data = bytes(i % 251 for i in range(n))
    return subprocess.run(['b3sum', '--no-names'], input=data, capture_output=True, check=True).stdout.decode().strip()


def oracle(script):
    opening = ('open tills=64 seed=%d fkey=auto log=0 lat=1000000 jit=0000000000000000 loss=0000000000000000 dup=0000000000000000 '
               'rep=0000000000000000 spike=0000000000000000 regions=none types=61 shards=none masks=' + ','.join(['0'] * 64) + '\n')
    lines = []
    for seed, call in script:
        lines.append(opening % seed + call + '\n')
    out = subprocess.run([sys.argv[1]], input=''.join(lines), capture_output=True, text=True, check=True).stdout
    return [line for line in out.splitlines() if line != 'open ok']


keys = ['00' * 32, bytes(range(32)).hex(), 'ff' * 32]
longest = 65700
out = []
for n in numbers('LENGTHS'):
    out.append('digest %d %s' % (n, b3sum(n) if n <= longest else 'refused 6'))
for h, n in zip(numbers('HEADS'), numbers('TOTALS')):
    out.append('parts %d %d %s' % (h, n, b3sum(n)))
for i, key in enumerate(keys):
    answers = oracle([(0, 'draw word %s %d 1' % (key, c)) for c in numbers('COUNTS')])
    for c, a in zip(numbers('COUNTS'), answers):
        out.append('word %d %d %s' % (i, c, a.split()[2]))
for i, key in enumerate(keys):
    answers = oracle([(0, 'draw long %s %d 12' % (key, c)) for c in numbers('STARTS')])
    for c, a in zip(numbers('STARTS'), answers):
        out.append('long %d %d %s' % (i, c, ' '.join(a.split()[2:14])))
links = list(zip(numbers('SEEDS'), numbers('FROMS'), numbers('TOS')))
for (s, f, t), a in zip(links, oracle([(s, 'linkkey %d %d' % (f, t)) for s, f, t in links])):
    out.append('link %d %d %d %s' % (s, f, t, a.split()[1]))
open(os.path.join(here, 'stdout'), 'w').write('\n'.join(out) + '\n')
