#!/usr/bin/env python3
"""Brings the names of this repository's own definitions and lemmas to today's spelling.

usage: python3 tools/respell.py [--dry]      at the top of the repository, once, after port.py

Functions, lemmas, constructors and fields become snake case (putPage, put-page: put_page), facts and theorems upper
camel case (Reads-what-was-written: ReadsWhatWasWritten). Only names that files of specs/ and proofs/ define are
turned; names that the prover makes of the code (goals, steps) are not theirs and stay. It stops, and writes
nothing, where two names would fall together.
"""

import collections
import os
import re
import sys

NAME = r"[^\s:(){}\[\]λ→;,.=|]+"
# Names that would fall together with another of a like spelling.
APART = {"told-by": "told_through", "put-page": "page_put", "put-at": "put_where"}
# Names that a function of src/ has too, in another place: they don't meet.
FINE = {"give_up", "page_at", "is_over"}
EDGE_BEFORE, EDGE_AFTER = r"(?<![\w'·-])", r"(?![\w'·-])"
DEFINES = [
    re.compile(r"^\s*(?:(?:abbrev|unfoldable|pub) )*(" + NAME + r") :(?!:)"),
    re.compile(r"^\s*(?:(?:abbrev|unfoldable|pub) )*(?:data|record) (" + NAME + r")(?=[\s:])"),
]


def files(root, *endings):
    for folder, dirs, names in os.walk(os.path.join(root, "crates")):
        dirs[:] = sorted(d for d in dirs if d not in ("out", "target"))
        for n in sorted(names):
            if n.endswith(endings):
                yield os.path.join(folder, n)


def spelt(name):
    if name in APART:
        return APART[name]
    words = re.sub(r"(?<=[a-z0-9])(?=[A-Z])", "_", name).replace("-", "_").split("_")
    if name[0].isupper():
        return "".join(w[:1].upper() + w[1:] for w in words)
    return "_".join(w[:1].lower() + w[1:] for w in words)


def main(argv):
    root = "."
    text = {p: open(p, encoding="utf-8").read() for p in files(root, ".antt", ".rt")}
    goals = {g for t in text.values() for g in re.findall(r"\bgoal\.([\w'-]+)", t)}
    defined = collections.Counter()
    for p, t in text.items():
        if p.endswith(".antt"):
            for line in t.splitlines():
                for r in DEFINES:
                    m = r.match(line)
                    if m:
                        defined[m[1]] += 1
    turn = {}
    for n in defined:
        if n in goals or not re.match(r"[A-Za-z]", n) or n.startswith(("if-", "in-", "loop-", "returns-")):
            continue
        if "-" in n or re.search(r"[a-z0-9][A-Z]", n) and n[0].islower():
            if spelt(n) != n:
                turn[n] = spelt(n)
    every = {w for t in text.values() for w in re.findall(r"[A-Za-z_][\w'-]*", t)}
    into = collections.defaultdict(list)
    for a, b in turn.items():
        into[b].append(a)
    bad = [f"{' and '.join(a)} would both be {b}" for b, a in into.items() if len(a) > 1]
    bad += [f"{a} would be {b}, which stands already" for a, b in turn.items() if b in every and b not in FINE]
    for line in bad:
        print("look: " + line)
    if "--dry" in argv:
        print(len(turn), "names")
        return 1 if bad else 0
    if bad:
        return 1
    some = re.compile(EDGE_BEFORE + "(" + "|".join(sorted(map(re.escape, turn), key=len, reverse=True)) + ")" + EDGE_AFTER)
    for p, t in text.items():
        new = some.sub(lambda m: turn[m[1]], t)
        if new != t:
            with open(p, "w", encoding="utf-8") as f:
                f.write(new)
    print(len(turn), "names turned")
    return 0


if __name__ == "__main__":
    raise SystemExit(main(sys.argv[1:]))
