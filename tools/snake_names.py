#!/usr/bin/env python3
"""Respells the repository's own definitions and lemmas in snake case: `row-fits` becomes `row_fits`.

Run once, at the top, after port.py. Names that Rattle makes for a function's goals and names of its library keep their spelling,
and so do strings. Prints the names that would fall together, and then writes nothing.
"""
import collections
import glob
import re
import sys

WORD = r"[A-Za-z_][\w']*(?:-[\w']+)+"
TOKEN = re.compile(r"(?<![\w'◌<>=≤-])" + WORD + r"(?![\w'◌<>=≤-])")
OWN = "algebra fields groups tables words codes books reader runs marks_lines specimens lineup".split()
DECLARED = re.compile(r"\s*(?:(?:abbrev|unfoldable|pub|record|data)\s+)*(" + WORD + r")\s*(?:\([^)]*\)\s*|\{[^}]*\}\s*)*:(?!:)")
BOUND = re.compile(r"(?:λ|\blet\b|\()\s*((?:[A-Za-z_][\w'-]*\s+)*?[A-Za-z_][\w'-]*)\s*[.:=]")
MADE = re.compile(r"(in|if|then|else|loop|returns|from-residual|from-in|invariant|bounds|decreases|overflow)-|.*-in-")


def main():
    files = sorted(p for p in glob.glob("crates/**/*", recursive=True) if p.endswith((".rt", ".antt")) and "/out/" not in p)
    texts = {p: open(p, encoding="utf-8").read() for p in files}
    own, library, plain = set(), set(), collections.defaultdict(set)
    for p, t in texts.items():
        for m in re.finditer(r"use ([\w.]+)\.\{([^}]*)\}", t):
            if not re.match(r"Rattle\.(?:%s)\." % "|".join(OWN), m.group(1)):
                library |= {n.split(" as ")[0].strip() for n in m.group(2).split(",")}
            own |= {n.split(" as ")[1].strip() for n in m.group(2).split(",") if " as " in n and "-" in n.split(" as ")[1]}
        for l in t.split("\n"):
            m = DECLARED.match(l)
            if m and "goal." not in l and "rules." not in l:
                own.add(m.group(1))
            for m in BOUND.finditer(l):
                own |= {n for n in m.group(1).split() if "-" in n}
        for m in re.finditer(r"[A-Za-z_][\w']*", re.sub(TOKEN, " ", t)):
            plain[m.group()].add(p)
    own = {n for n in own - library if not MADE.match(n) and TOKEN.fullmatch(n)}
    new = {n: n.replace("-", "_") for n in own}
    bad = [(n, x) for n, x in sorted(new.items()) if x in library]
    for n, x in sorted(new.items()):
        used = {p for p, t in texts.items() if n in t}
        if used & plain.get(x, set()):
            bad.append((n, x, sorted(used & plain[x])[:3]))
    for b in bad:
        print("fall together:", *b)
    if bad and "--go" not in sys.argv:
        return 1
    for p, t in texts.items():
        parts = re.split(r'("(?:[^"\\\n]|\\.)*")', t) if p.endswith(".rt") else [t]
        o = "".join(s if i % 2 else TOKEN.sub(lambda m: new.get(m.group(), m.group()), s) for i, s in enumerate(parts))
        if o != t:
            with open(p, "w", encoding="utf-8") as f:
                f.write(o)
    print(f"{len(new)} names")
    return 0


sys.exit(main())
