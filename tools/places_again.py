#!/usr/bin/env python3
"""Counts the places of the design pass (docs/DESIGN-PASS.md) a second time, in another way than tools/places.py: over the words of a function or a type,
not over lines, and by what a body does, not by names.

usage: tools/places_again.py [POINT] [--list] [--tree DIR]
POINT is one of 1 2 3 4 5a 5b 6 7 8; without one, all are counted. --list prints each place.
"""

import collections
import difflib
import os
import re
import sys

from places import show

INTEGER = ("u8", "u16", "u32", "u64", "usize", "i64", "u128")
KEYWORDS = {"if", "else", "while", "loop", "for", "in", "let", "mut", "return", "match", "as", "true", "false", "fn", "self", "break"}


def words_of(text):
    """(word, line) of a source text, without comments; a string is one word"""
    found = []
    for m in re.finditer(r'//[^\n]*|"(?:[^"\\]|\\.)*"|[A-Za-z_]\w*|\d\w*|::|->|=>|==|!=|<=|>=|&&|\|\||[^\s\w]', text):
        if not m.group(0).startswith("//"):
            found.append((m.group(0), text[: m.start()].count("\n")))
    return found


def closing(words, i):
    """the place of the bracket that closes the one at i"""
    pairs = {"{": "}", "(": ")", "[": "]"}
    opens, deep = words[i][0], 0
    for k in range(i, len(words)):
        deep += (words[k][0] == opens) - (words[k][0] == pairs[opens])
        if not deep:
            return k
    return len(words) - 1


def sources(tree):
    root = os.path.join(tree, "crates")
    for crate in sorted(os.listdir(root)):
        for folder, _, files in sorted(os.walk(os.path.join(root, crate, "src"))):
            for name in sorted(files):
                if name.endswith(".rt"):
                    path = os.path.join(folder, name)
                    yield os.path.relpath(path, root), open(path, encoding="utf-8").read()


class Function:
    """a function: its name, its parameters as (name, words of the type), its clauses and the words of its body"""

    def __init__(self, path, words, i, in_impl):
        self.path, self.line, self.name, self.in_impl = path, words[i][1], words[i + 1][0], in_impl
        k = i + 2
        while words[k][0] != "(":
            k += 1
        end = closing(words, k)
        self.parameters, part, deep = [], [], 0
        for word, _ in [*words[k + 1 : end], (",", 0)]:
            deep += (word in "([{<") - (word in ")]}>")
            if word == "," and deep == 0:
                if ":" in part:
                    at = part.index(":")
                    self.parameters.append((part[at - 1], part[at + 1 :]))
                part = []
            else:
                part.append(word)
        self.clauses, k, result = [], end + 1, []
        while words[k][0] not in ("{", "requires", "ensures") and not (words[k][0] == ";" and result.count("[") == result.count("]")):
            result.append(words[k][0])
            k += 1
        self.result = result[1:]
        while words[k][0] in ("requires", "ensures"):
            kind = words[k][0]
            while words[k][0] != "{":
                k += 1
            end = closing(words, k)
            self.clauses.append((kind, [w for w, _ in words[k + 1 : end]]))
            k = end + 1
        end = closing(words, k) if words[k][0] == "{" else k
        self.body, self.after = words[k + 1 : end], k if words[k][0] == "{" else k + 1


def functions(tree):
    for path, text in sources(tree):
        words, i, impl_until = words_of(text), 0, -1
        while i < len(words):
            if words[i][0] == "impl" and "for" in [w for w, _ in words[i : i + 14]]:
                k = i
                while words[k][0] != "{":
                    k += 1
                impl_until = max(impl_until, closing(words, k))
            is_test = [w for w, _ in words[max(0, i - 6) : i]][-6:].count("test") > 0
            if words[i][0] == "fn" and re.match(r"[A-Za-z_]", words[i + 1][0]):
                it = Function(path, words, i, i < impl_until)
                if not is_test:
                    yield it
                i = it.after
            i += 1


def is_slice(kind):
    return "[" in kind and ";" not in kind and "&" in kind


def point_1(tree):
    """enums of two cases with a value, fields of type bool, three and more integer constants in a row, numbers compared with or stored as a literal in a field `number` or `found`"""
    for path, text in sources(tree):
        words = words_of(text)
        run = []
        for i, (word, line) in enumerate(words):
            if word == "enum":
                k = i
                while words[k][0] != "{":
                    k += 1
                inner, deep, cases = words[k + 1 : closing(words, k)], 0, 1
                for w, _ in inner[:-1]:
                    deep += (w in "([{") - (w in ")]}")
                    cases += w == "," and deep == 0
                if cases == 2 and any(w in "({" for w, _ in inner):
                    yield path, line, "enum " + words[i + 1][0]
            if word == "struct" and words[i + 2][0] in ("{", "<"):
                k = i
                while words[k][0] != "{":
                    k += 1
                inner = [w for w, _ in words[k + 1 : closing(words, k)]]
                for a, b, c in zip(inner, inner[1:], inner[2:]):
                    if b == ":" and c == "bool":
                        yield path, line, "struct %s: %s is a bool" % (words[i + 1][0], a)
            if word in ("number", "found") and words[i + 1][0] in (":", "==", "!=") and words[i + 2][0].isdigit():
                yield path, line, "%s %s %s" % (word, words[i + 1][0], words[i + 2][0])
        for m in re.finditer(r"(?:^(?:pub )?const (\w+): (?:u64|u8|u32) = (\d+);\n(?:\n|//.*\n)*){3,}", text, re.M):
            values = [int(v) for v in re.findall(r"= (\d+);", m.group(0))]
            if all(b - a == 1 for a, b in zip(values, values[1:])):
                yield path, text[: m.start()].count("\n"), "%d constants in a row" % len(values)


def shape(body):
    seen, out = {}, []
    for word, _ in body:
        if word in INTEGER or re.match(r"\d", word):
            out.append("N")
        elif re.match(r"[A-Za-z_]\w*$", word) and word not in KEYWORDS:
            out.append(seen.setdefault(word, "v%d" % len(seen)))
        else:
            out.append(word)
    return out


def point_2(tree):
    """functions of 24 words and more whose bodies are nine tenths alike, names, numbers and types aside"""
    every = [(f, shape(f.body)) for f in functions(tree) if len(f.body) >= 24]
    every.sort(key=lambda it: len(it[1]))
    for i, (f, s) in enumerate(every):
        for g, t in every[i + 1 :]:
            if len(t) > 1.15 * len(s):
                break
            m = difflib.SequenceMatcher(None, s, t, autojunk=False)
            if m.real_quick_ratio() > 0.93 and m.quick_ratio() > 0.93 and m.ratio() > 0.93:
                yield g.path, g.line, "%s ~ %s %s" % (g.name, f.path, f.name)
                break


def point_3(tree):
    """`while` and `loop`"""
    for f in functions(tree):
        for word, line in f.body:
            if word in ("while", "loop"):
                yield f.path, line, f.name


def point_4(tree):
    """bytes taken out of or put into a number by shifts, masks or remainders of 256, elements copied or compared one by one in a loop, and chains of two comparisons that order"""
    for f in functions(tree):
        body = " ".join(w for w, _ in f.body)
        if re.search(r"(% 256|& 255|& 0xff|> > 8\b|< < 8\b).*(% 256|& 255|& 0xff|> > |< < )", body):
            yield f.path, f.line, f.name + ": bytes"
        loop = re.search(r"\b(while|for)\b[^{]*\{(.*)\}", body)
        if loop and re.fullmatch(r"\s*(let \w+ = [\w+ ]+ ; )?\w+ \[ [^\]]* \] = \w+ \[ [^\]]* \] ;( \w+ \+ = 1 ;)?\s*", loop.group(2)):
            yield f.path, f.line, f.name + ": copies"
        if re.search(r"if (.*?) < (.*?) \{ return true ; \} if \1 == \2", body):
            yield f.path, f.line, f.name + ": orders"


def point_5a(tree):
    """functions with five and more slices as parameters"""
    for f in functions(tree):
        n = sum(is_slice(t) for _, t in f.parameters)
        if n >= 5:
            yield f.path, f.line, "%s: %d slices" % (f.name, n)


def point_5b(tree):
    """facts of `requires` that stand, parameters numbered and not named, in three and more functions"""
    found = collections.defaultdict(list)
    for f in functions(tree):
        for kind, clause in f.clauses:
            if kind == "requires":
                for part in re.split(r"\s×\s", " ".join(clause)):
                    numbers = {}
                    names = {name for name, _ in f.parameters}
                    said = [numbers.setdefault(w, "p%d" % len(numbers)) if w in names else w for w in part.split()]
                    while said[:1] == ["("] and said[-1:] == [")"]:
                        said = said[1:-1]
                    found[" ".join(said)].append(f)
    for fact, places in sorted(found.items(), key=lambda it: -len(it[1])):
        if len(places) >= 3:
            for f in places:
                yield f.path, f.line, "%s: %s" % (f.name, fact)


def point_6(tree):
    """a slice and an integer that a clause sets beside the slice's length"""
    for f in functions(tree):
        said = " ".join(" ".join(clause) for kind, clause in f.clauses if kind == "requires")
        for name, kind in f.parameters:
            if is_slice(kind):
                for other, of in f.parameters:
                    near = re.search(r"\b%s\b[^×]*≤ length (« )?%s\b" % (re.escape(other), re.escape(name)), said)
                    if of[-1:] == ["usize"] and near and other in ("n", "k", "count", "used", "len", "i"):
                        yield f.path, f.line, "%s(%s, %s)" % (f.name, name, other)


def point_7(tree):
    """a `match` on an integer: arms that begin with a number, and three `if x == NUMBER` in a row"""
    for f in functions(tree):
        body = " ".join(w for w, _ in f.body)
        if re.search(r"\bmatch [^{]*\{ \d+ =>", body) or re.search(r"if (\w+) == \d+ \{.*if \1 == \d+ \{.*if \1 == \d+ \{", body):
            yield f.path, f.line, f.name


def point_8(tree):
    """files of proofs/, one a place"""
    for folder, _, files in sorted(os.walk(os.path.join(tree, "crates"))):
        if "/proofs" in folder and "/out/" not in folder:
            for name in sorted(files):
                if name.endswith(".antt"):
                    yield os.path.relpath(os.path.join(folder, name), os.path.join(tree, "crates")), 0, "a file"


POINTS = [("1", point_1), ("2", point_2), ("3", point_3), ("4", point_4), ("5a", point_5a), ("5b", point_5b), ("6", point_6), ("7", point_7), ("8", point_8)]


if __name__ == "__main__":
    show(POINTS, sys.argv[1:])
