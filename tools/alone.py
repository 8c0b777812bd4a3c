#!/usr/bin/env python3
"""Says which answers of a crate's proofs the check finds alone: it sets every proofs/F/Answers.antt aside, runs `rt check`, and reads which goals
are then left open. The files are put back; where it is killed, git restores them.

usage: tools/alone.py [--drop] [NAME..]
NAME is a crate (none: each that has answers). --drop takes the answers found out of their files; `rt tidy` then drops the imports that they used.
"""

import os
import re
import subprocess
import sys

ROOT = os.path.join(os.path.dirname(os.path.dirname(os.path.realpath(__file__))), "crates")
ANSWER = re.compile(r"^(?:pub )?(\S+) : goal\.", re.M)
HOLES = re.compile(r"write \./proofs/(\S+)/Answers\.antt with these lines.*?\n((?:.*\n)*?)(?=help:|note:|logic=|\Z)")
HOLE = re.compile(r"([^\s:|]+) : goal\.")


def answers_of(crate):
    """the files of answers by the function that they are of, with their texts"""
    found = {}
    for folder, _, files in os.walk(os.path.join(ROOT, crate, "proofs")):
        if "Answers.antt" in files:
            path = os.path.join(folder, "Answers.antt")
            with open(path, encoding="utf-8") as it:
                found[os.path.relpath(folder, os.path.join(ROOT, crate, "proofs"))] = path, it.read()
    return found


def open_goals(crate, files):
    """the goals that are open without the answers, by function; None where the check said something else"""
    for path, _ in files.values():
        os.remove(path)
    try:
        ran = subprocess.run(["rt", "check"], cwd=os.path.join(ROOT, crate), capture_output=True, text=True)
    finally:
        for path, text in files.values():
            with open(path, "w", encoding="utf-8") as it:
                it.write(text)
    said = ran.stdout + ran.stderr
    found = {}
    for m in HOLES.finditer(said):
        found.setdefault(m.group(1), set()).update(HOLE.findall(m.group(2)))
    return found if found or "logic=proved" in said else None


def without(text, names):
    """the text of a file of answers without those of these names"""
    parts = re.split(r"\n\n+", text.strip("\n"))
    kept = []
    for part in parts:
        m = ANSWER.search(part)
        if not (m and m.group(1) in names):
            kept.append(part)
    return "\n\n".join(kept) + "\n"


def drop(files, alone):
    for function, names in alone.items():
        path, text = files[function]
        left = without(text, names)
        if ANSWER.search(left):
            with open(path, "w", encoding="utf-8") as it:
                it.write(left)
        else:
            os.remove(path)


def main(words):
    names = [it for it in words if not it.startswith("--")] or sorted(os.listdir(ROOT))
    for crate in names:
        files = answers_of(crate)
        if not files:
            continue
        left = open_goals(crate, files)
        if left is None:
            print("%s: the check ended before it came to the goals" % crate, flush=True)
            continue
        alone = {f: [n for n in ANSWER.findall(text) if n not in left.get(f, ())] for f, (_, text) in files.items()}
        alone = {f: found for f, found in alone.items() if found}
        every = sum(len(ANSWER.findall(text)) for _, text in files.values())
        print("%s: %d of %d answers are found alone%s" % (crate, sum(map(len, alone.values())), every, "".join("\n    %s: %s" % (f, " ".join(n)) for f, n in sorted(alone.items()))), flush=True)
        if "--drop" in words:
            drop(files, alone)


if __name__ == "__main__":
    main(sys.argv[1:])
