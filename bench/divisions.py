#!/usr/bin/env python3
"""divisions.py [CRATE FUNCTION..]: which functions that a draw reaches divide or take a remainder, by the MIR that `rt check --generated` writes.

Without words it looks at every draw on a stream: the words of rand_chacha8, the cursor of rand_streams, the draws of rand_draw, and the draw on a
stream record that is lent by `&mut` (gossip). Says for each how many functions it reaches, names those of them with a `div` or a `rem` of integers,
and ends with status 1 where there is one.
"""
import functools
import glob
import os
import re
import subprocess
import sys
import tempfile

DRAWS = {
    "rand_chacha8": ["split", "word", "block"],
    "rand_streams": ["Cursor::at", "Cursor::draw32", "Cursor::draw64", "record::draw_at"],
    "rand_draw": ["draw_fraction", "draw_real", "hits", "whole32", "whole64", "range64"],
    "gossip": ["streams::gossip_next_u64"],
}


def below(crate):
    """The crates of this repository that a crate stands on, itself among them."""
    with open("crates.txt", encoding="utf-8") as f:
        lines = [line.split("#")[0].split(":") for line in f if ":" in line.split("#")[0]]
    uses = {left.split()[0]: right.split() for left, right in lines}
    found, left = set(), [crate]
    while left:
        c = left.pop()
        if c in uses and c not in found:
            found.add(c)
            left += uses[c]
    return sorted(found)


@functools.cache
def own_functions(crate):
    """Name and MIR of each function of one crate."""
    with tempfile.TemporaryDirectory() as room:
        subprocess.run(["rt", "check", "--generated", room], cwd=f"crates/{crate}", capture_output=True, check=True)
        found = {}
        top = f"{room}/Rattle-{crate}-proofs/"
        for path in glob.glob(f"{top}**/Code/Mir.antt", recursive=True):
            name = os.path.relpath(os.path.dirname(os.path.dirname(path)), top).replace("/", "::")
            with open(path, encoding="utf-8") as f:
                found[f"{crate}::{name}"] = f.read()
    return found


def functions(crate):
    """Name and MIR of each function of a crate, those of the crates below it among them."""
    return {name: body for c in below(crate) for name, body in own_functions(c).items()}


def called(body):
    """The functions that a body names."""
    return [f"{c}::{path.replace('.', '::')}" for c, path in re.findall(r"(?m)^use Rattle\.(\w+)\.proofs\.(\S+)\.Symbol\b", body)]


def reached(bodies, name):
    """The functions that a call of this one may run, itself among them."""
    found, left = set(), [name]
    while left:
        f = left.pop()
        if f not in found:
            found.add(f)
            left += [g for g in called(bodies[f]) if g in bodies]
    return found


def main(words):
    os.chdir(os.path.join(os.path.dirname(os.path.abspath(__file__)), ".."))
    asked = {words[0]: words[1:]} if words else DRAWS
    divide = 0
    for crate, names in asked.items():
        bodies = functions(crate)
        for name in names:
            inside = reached(bodies, f"{crate}::{name}")
            dividing = sorted(f for f in inside if re.search(r"\(Syntax\.(div|rem) Syntax\.(un)?signed\)", bodies[f]))
            divide += len(dividing)
            print(f"{crate}::{name}: {len(inside)} functions, {len(dividing)} divide {' '.join(dividing)}".rstrip())
    return 1 if divide else 0


if __name__ == "__main__":
    sys.exit(main(sys.argv[1:]))
