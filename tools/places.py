#!/usr/bin/env python3
"""Counts the places of the design pass (docs/DESIGN-PASS.md) in crates/*/src.

usage: tools/places.py [POINT] [--list] [--tree DIR]
POINT is one of 1a 1b 1c 1d 2a 2b 3 4 5a 5b 6a 6b 7 8; without one, all are counted. --list prints each place. The text is read with its comments taken
off, and without the functions marked #[test].
"""

import collections
import os
import re
import sys

TABLES = {"setup", "net", "names", "tills", "words", "keys", "prices", "seen", "waiting", "rings", "rules", "blocks", "log"}
FLAGS = "good|hit|some|drops|found|planned|bounded|original|own|is_some"
BY_HAND = r"wide|low|low_byte|byte_of|bit|one|size|less|least|plus|same|is_same|same_text|same_words|agrees|is_before|is_pair|is_of|is_blank|get|put|store|pick|late|kind|taken|differs|cell|copied|copy|copy_in|copy_row|copy_rows|copy_front|fill|clear|front|front32|part|part32|back|all|low_half|add|xor|rotl|rotr|least_of"


def matching(lines, pattern):
    """the lines, by number, in which the pattern is found"""
    return [(i, l.strip()) for i, l in enumerate(lines) if re.search(pattern, l)]


def crates(tree):
    root = os.path.join(tree, "crates")
    return [(c, os.path.join(root, c, "src")) for c in sorted(os.listdir(root)) if os.path.isdir(os.path.join(root, c, "src"))]


def sources(tree):
    for crate, src in crates(tree):
        for folder, _, files in os.walk(src):
            for f in sorted(files):
                if f.endswith(".rt"):
                    path = os.path.join(folder, f)
                    lines = open(path, encoding="utf-8").read().split("\n")
                    lines = ["" if re.match(r"\s*//", l) else re.sub(r"\s+// .*$", "", l) for l in lines]
                    yield crate, crate + "/src/" + os.path.relpath(path, src), lines


def functions(lines):
    """(name, line, signature, body) of each function: by the brace at the indentation of `fn`."""
    i = 0
    while i < len(lines):
        m = re.match(r'(\s*)(?:pub(?:\([a-z]+\))? )?(?:const )?(?:extern "C" )?fn (\w+)', lines[i])
        if not m:
            i += 1
            continue
        start, j, test = i, i, i > 0 and "#[test]" in lines[i - 1]
        while not (lines[j].rstrip().endswith("{") and (re.match(r"\s*\{$", lines[j]) or j == i or re.match(r"\s*\).*\{$", lines[j]))):
            if lines[j].rstrip().endswith(";") and not lines[j].strip().startswith(("requires", "ensures")):
                break
            j += 1
        k = j + 1
        while k < len(lines) and lines[k] != m.group(1) + "}":
            k += 1
        if not test:
            yield m.group(2), start, "\n".join(lines[start : j + 1]), "\n".join(lines[j + 1 : k])
        i = j + 1


def parameters(signature):
    text, depth, out = signature[signature.index("fn ") :], 0, ""
    text = text[text.index("(") + 1 :]
    for c in text:
        depth += (c in "([{<") - (c in ")]}>")
        if depth < 0:
            break
        out += c
    return re.findall(r"(?:^|[,(\s])(?:mut )?(\w+):\s*([^,]+)", out)


def shape(body):
    seen, out = {}, []
    for t in re.findall(r"\w+|[^\w\s]", re.sub(r"\b(u8|u16|u32|u64|usize|i32|i64)\b", "NUM", body)):
        if re.match(r"\d", t):
            t = "N"
        elif re.match(r"[A-Za-z_]\w*$", t) and t not in ("if", "else", "while", "let", "mut", "return", "match", "as", "true", "false", "for", "in", "NUM", "len"):
            t = seen.setdefault(t, "v%d" % len(seen))
        out.append(t)
    return tuple(out)


def enums(lines):
    text = "\n".join(lines)
    for m in re.finditer(r"^(?:pub )?enum (\w+)[^{]*\{(.*?)^\}", text, re.S | re.M):
        variants = [v.strip() for v in re.split(r",\s*\n", m.group(2)) if v.strip()]
        yield m.group(1), text[: m.start()].count("\n"), variants


def point_1a(tree):
    """own enums of two cases, one of them empty or both with one value"""
    for _, path, lines in sources(tree):
        for name, line, variants in enums(lines):
            full = [v for v in variants if "(" in v or "{" in v]
            if len(variants) == 2 and len(full) >= 1:
                yield path, line, "enum " + name


def point_1b(tree):
    """a flag with a value beside it: a field that says whether the others count, as a bool or as 0 and 1"""
    for _, path, lines in sources(tree):
        for i, l in enumerate(lines):
            if re.match(r"\s+(pub )?(%s): (bool|u64),$" % FLAGS, l):
                yield path, i, l.strip()


def point_1c(tree):
    """numbers for kinds: constants 0, 1, 2 .. of type u64 or u8, and parameters or fields `which`, `kind: u8`, `asked`"""
    for _, path, lines in sources(tree):
        for i, l in enumerate(lines):
            if re.match(r"(pub )?const [A-Z_0-9]+: (u64|u8) = (\d{1,2}|b'.');$", l) and not re.search(r"MOST|LONGEST|WIDTH|SLOTS|GLOBAL|CLASSES|LAST|LIMIT|WIDE|WORDS:", l):
                yield path, i, l.strip()
            for m in re.finditer(r"\b(which|asked): u64\b", l):
                yield path, i, m.group(0)


def point_1d(tree):
    """numbers for refusals: a question's number returned, stored or compared with 0"""
    for _, path, lines in sources(tree):
        if path.startswith(("vectors", "gossip/src/opens")):
            continue
        for i, l in enumerate(lines):
            if re.search(r"\breturn \d{1,2};|refused\(\d+\)|number: \d|number != 0|number == 0|refusal != 0|full != 0", l):
                if re.search(r"return \d{1,2};", l):
                    back = "\n".join(lines[max(0, i - 60) : i])
                    sign = re.findall(r"fn \w+\([^{]*?\) -> (\w+)", back, re.S)
                    if not (path.startswith(("ask_", "call_", "fault_")) and sign and sign[-1] == "u64"):
                        continue
                yield path, i, l.strip()


def twins(tree):
    groups = collections.defaultdict(list)
    for crate, path, lines in sources(tree):
        for name, line, sign, body in functions(lines):
            s = shape(body)
            if len(s) >= 8:
                groups[s].append((path, line, name, len(s)))
    return groups


def point_2a(tree):
    """functions whose bodies are alike but for names, numbers and types (bodies of 20 words and more), less one a group"""
    for s, places in sorted(twins(tree).items(), key=lambda g: -len(g[1])):
        if len(places) > 1 and len(s) >= 20:
            for path, line, name, _ in places[1:]:
                yield path, line, "%s ~ %s %s" % (name, places[0][0], places[0][2])


def point_2b(tree):
    """small ones of the same name and shape (8 to 19 words), less one a group; and structs with the same fields and types"""
    for s, places in twins(tree).items():
        if 8 <= len(s) < 20:
            by = collections.defaultdict(list)
            for p in places:
                by[p[2]].append(p)
            for name, same in by.items():
                for path, line, _, _ in same[1:]:
                    yield path, line, "%s ~ %s" % (name, same[0][0])
    fields = collections.defaultdict(list)
    for _, path, lines in sources(tree):
        text = "\n".join(lines)
        for m in re.finditer(r"^(?:pub )?struct (\w+)[^{\n]*\{(.*?)^\}", text, re.S | re.M):
            key = tuple(re.findall(r"(\w+: [^,]+),", m.group(2)))
            value = tuple(k for k in key if not k.startswith("value")) if any(k.startswith("next: Cursor") for k in key) else key
            fields[value].append((path, text[: m.start()].count("\n"), m.group(1)))
    for key, places in fields.items():
        for path, line, name in places[1:]:
            if key:
                yield path, line, "struct %s ~ %s %s" % (name, places[0][0], places[0][2])


def point_3(tree):
    """loops that count by hand: `while`, and `loop`"""
    for _, path, lines in sources(tree):
        yield from ((path, i, l) for i, l in matching(lines, r"^\s*(while |loop \{)"))


def point_4(tree):
    """equality, order, copying, conversion by hand: functions of the names in BY_HAND, and chains of % 256"""
    for _, path, lines in sources(tree):
        for name, line, sign, body in functions(lines):
            if re.fullmatch(BY_HAND, name):
                yield path, line, "fn " + name
        for i, l in enumerate(lines):
            if re.search(r"/ 16777216 % 256|/ 256 % 256", l) and not (i and re.search(r"% 256", lines[i - 1])):
                yield path, i, l.strip()


def point_5a(tree):
    """functions that are passed five or more of the network's tables one by one"""
    for _, path, lines in sources(tree):
        for name, line, sign, _ in functions(lines):
            n = sum(1 for p, t in parameters(sign) if p in TABLES and "[" in t)
            if n >= 5:
                yield path, line, "%s: %d tables" % (name, n)


def facts(tree):
    found = collections.defaultdict(list)
    for _, path, lines in sources(tree):
        for name, line, sign, _ in functions(lines):
            for clause in re.findall(r"requires(?: \w+)? \{ (.*?) \}$", sign, re.M):
                for part in re.split(r" × ", clause):
                    fact = re.sub(r"\s+", " ", part.strip("() "))
                    found[fact].append((path, line, name))
    return found


def point_5b(tree):
    """a fact of a `requires` that stands in three or more functions"""
    for fact, places in sorted(facts(tree).items(), key=lambda f: -len(f[1])):
        if len(places) >= 3:
            for path, line, name in places:
                yield path, line, "%s: %s" % (name, fact)


def point_6a(tree):
    """a buffer and how much of it counts, as two parameters"""
    for _, path, lines in sources(tree):
        for name, line, sign, _ in functions(lines):
            ps = parameters(sign)
            for (a, t), (b, u) in zip(ps, ps[1:]):
                if "[" in t and u.strip() == "usize" and b in ("used", "n", "count", "len"):
                    yield path, line, "%s(%s, %s)" % (name, a, b)


def point_6b(tree):
    """numbered places of a table of figures: constants that index a slice of the program's own"""
    for _, path, lines in sources(tree):
        if not path.startswith(("sim_figures", "sim_audit", "sim_notes", "sim_comparison")):
            continue
        for i, l in enumerate(lines):
            if re.match(r"(pub )?const [A-Z_0-9]+: usize = ", l):
                yield path, i, l.strip()


def point_7(tree):
    """a switch on which step to run: `match which`, `match asked`, or an `if which ==`"""
    for _, path, lines in sources(tree):
        yield from ((path, i, l) for i, l in matching(lines, r"match (which|asked|kind)\b|if (which|asked) [=!]="))


def point_8(tree):
    """answers of proofs/*/Answers.antt, and lemmas of other files of proofs/"""
    for crate, src in crates(tree):
        proofs = os.path.join(os.path.dirname(src), "proofs")
        for folder, _, files in os.walk(proofs):
            for f in sorted(files):
                if f.endswith(".antt"):
                    path = os.path.join(folder, f)
                    for i, l in enumerate(open(path, encoding="utf-8")):
                        if re.match(r"(unfoldable |abbrev )*(pub )?[^\s({]+ : ", l):
                            kind = "answer" if f == "Answers.antt" else "invariant" if f == "Invariants.antt" else "lemma"
                            yield crate + "/proofs/" + os.path.relpath(path, proofs), i, kind


POINTS = [("1a", point_1a), ("1b", point_1b), ("1c", point_1c), ("1d", point_1d), ("2a", point_2a), ("2b", point_2b), ("3", point_3), ("4", point_4),
          ("5a", point_5a), ("5b", point_5b), ("6a", point_6a), ("6b", point_6b), ("7", point_7), ("8", point_8)]


def show(points, args):
    """prints how many places each point has, and with --list each place; points is a list of a key and what finds the places, lines from 0"""
    listed = "--list" in args
    tree = args[args.index("--tree") + 1] if "--tree" in args else os.path.dirname(os.path.dirname(os.path.realpath(__file__)))
    asked = [a for a in args if not a.startswith("--") and a != tree]
    for key, places in points:
        if asked and key not in asked:
            continue
        found = list(places(tree))
        print("%-3s %5d  %s" % (key, len(found), places.__doc__))
        if listed:
            for path, line, what in found:
                print("      %s:%d  %s" % (path, line + 1, what))


if __name__ == "__main__":
    show(POINTS, sys.argv[1:])
