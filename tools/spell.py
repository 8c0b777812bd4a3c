#!/usr/bin/env python3
"""Gives the definitions, lemmas and fields of this repository's .antt files their spelling in snake case.

usage: python3 tools/spell.py            (at the top of the repository)

tools/spelling.tsv has a row for each name: the old one, a tab, the new one. It was made of all names that specs/ and proofs/
declare; a lemma that would have met a definition got `_lem` behind its name. A whole word of a .antt file turns; of a .rt file, a word
of its clauses and `ghost use` lines; in comments and in the code spans of README.md and docs/, a name with an inner capital alone. spec_book/specs/Contracts becomes
specs/PublicContracts, since Rattle makes a module specs.contracts.
A second run changes nothing but what was written anew in the old spelling.
"""

import glob
import os
import re

HERE = os.path.dirname(os.path.realpath(__file__))
WORD = re.compile(r'[^\s(){}.;,@"«»]+')
CAMEL = re.compile(r"[a-z]\w*[a-z0-9][A-Z]\w*'*")


def rows():
    with open(os.path.join(HERE, "spelling.tsv"), encoding="utf-8") as f:
        return dict(line.rstrip("\n").split("\t") for line in f)


TABLE = rows()


def code(text, walk=False):
    """The words of antt's code. In a walk a step's label, behind a dot, may have a lemma's old name, and stays."""

    def one(m):
        new = TABLE.get(m[0])
        if new is None or walk and new.endswith("_lem") and text[m.start() - 1 : m.start()] == ".":
            return m[0]
        return new

    return WORD.sub(one, text)


def prose(text):
    return CAMEL.sub(lambda m: TABLE.get(m[0], m[0]), text)


def antt(text, walk):
    lines = []
    for line in text.split("\n"):
        at = re.search(r"(?:^|(?<=\s))--(?=\s|$)", line)
        cut = at.start() if at else len(line)
        lines.append(code(line[:cut], walk) + prose(line[cut:]))
    return "\n".join(lines)


def rt(text):
    out, deep = [], None  # the braces that are open in the clause or the `ghost use` at hand
    for line in text.split("\n"):
        at = line.find("//")
        cut = at if at >= 0 else len(line)
        head, tail = line[:cut], line[cut:]
        if deep is None and re.match(r"\s*(ghost|requires|ensures)\b", head):
            deep = 0
        if deep is not None:
            head = code(head)
            deep += head.count("{") - head.count("}")
            if deep == 0 and head.rstrip().endswith((";", "}", ",")):
                deep = None
        out.append(head + prose(tail))
    return "\n".join(out)


def spans(text):
    return re.sub(r"`[^`\n]+`", lambda m: prose(m[0]), text)


def turn(path, how):
    with open(path, encoding="utf-8") as f:
        old = f.read()
    new = how(old)
    if new != old:
        with open(path, "w", encoding="utf-8") as f:
            f.write(new)
        print(path)


def main():
    for path in sorted(glob.glob("crates/*/specs/**/*.antt", recursive=True) + glob.glob("crates/*/proofs/**/*.antt", recursive=True)):
        walk = os.path.basename(path) in ("Proof.antt", "Answers.antt", "Invariants.antt")
        turn(path, lambda text: antt(text, walk))
    for path in sorted(glob.glob("crates/*/src/*.rt")):
        turn(path, rt)
    moved = "crates/spec_book/specs/Contracts.antt"
    if os.path.exists(moved):  # the module `specs.contracts` is Rattle's now
        os.rename(moved, "crates/spec_book/specs/PublicContracts.antt")
    for path in glob.glob("crates/*/specs/*.antt") + glob.glob("crates/*/proofs/**/*.antt", recursive=True):
        turn(path, lambda text: text.replace("Rattle.spec_book.specs.Contracts", "Rattle.spec_book.specs.PublicContracts"))
    turn("crates/spec_book/specs/Lib.antt", lambda text: re.sub(r"(?m)^pub mod Contracts$", "pub mod PublicContracts", text))
    for path in ["README.md"] + sorted(glob.glob("docs/**/*.md", recursive=True)):
        turn(path, spans)


main()
