#!/usr/bin/env python3
"""Gives the repository's own definitions and lemmas the spelling of today's Rattle: snake case for words.

usage: python3 tools/spell.py [FOLDER]     FOLDER is a checkout (this one without it), over which port.py has run

tools/spelling.txt has a line for each name: old, new. Functions of src/, exported names, strings, inputs and outputs keep theirs; so do
the steps and goals that Rattle names in proofs/FUNCTION/.
"""

import glob
import os
import re
import sys

HERE = os.path.dirname(os.path.realpath(__file__))
ROOT = sys.argv[1] if len(sys.argv) > 1 else os.path.dirname(HERE)
WORD = re.compile(r"[^\s(){}\[\];,.λ:@\"`|]+")
NAMES = dict(l.split() for l in open(os.path.join(HERE, "spelling.txt"), encoding="utf-8"))


def fields():
    """Names of record fields: they stand behind a dot."""
    found = set()
    for p in glob.glob(os.path.join(ROOT, "crates/*/specs/*.antt")) + glob.glob(os.path.join(ROOT, "crates/*/proofs/*.antt")):
        inside = False
        for l in open(p, encoding="utf-8"):
            if re.match(r"\s*(pub )?record ", l):
                inside = True
            elif inside and not re.match(r"\s+", l):
                inside = False
            m = inside and re.match(r"\s+(?:pub )?(\S+)\s+:", l)
            if m:
                found.add(m.group(1))
    return found


def turn(text, step=lambda before, word: True):
    """Each word that has a new spelling, where `step` lets it."""
    out, at = [], 0
    for m in WORD.finditer(text):
        new = NAMES.get(m.group())
        if new and step(text[max(0, m.start() - 60) : m.start()], m.group()):
            out += [text[at : m.start()], new]
            at = m.end()
    return "".join(out) + text[at:]


def behind_module(before):
    return re.search(r"(?:^|[^\w'])[A-Z][\w']*\.$", before) is not None


def write(path, new, old):
    if new != old:
        with open(path, "w", encoding="utf-8") as f:
            f.write(new)


def main():
    own = fields()
    rt = [open(p, encoding="utf-8").read() for p in glob.glob(os.path.join(ROOT, "crates/*/specs/*.antt"))]
    if not any(re.search("[A-Z]", w) and w in NAMES for t in rt for w in WORD.findall(t)):
        print("spell: every name has its new spelling", file=sys.stderr)
        raise SystemExit(2)
    for p in sorted(glob.glob(os.path.join(ROOT, "crates/**/*"), recursive=True)):
        if "/out/" in p or not p.endswith((".antt", ".rt")):
            continue
        old = open(p, encoding="utf-8").read()
        if p.endswith(".rt"):
            new = turn(old, lambda b, w: re.search("[A-Z-]", w) is not None)
        elif re.search(r"/proofs/[^/]+/[^/]+\.antt$", p):
            new = turn(old, lambda b, w: not b.endswith(".") or b.endswith("{.") or behind_module(b) or w in own)
        else:
            new = turn(old)
        write(p, new, old)
    for p in glob.glob(os.path.join(ROOT, "docs/*.md")) + [os.path.join(ROOT, "README.md")]:
        old = open(p, encoding="utf-8").read()
        camel = lambda b, w: re.search("[A-Z]", w) is not None
        lines = []
        for l in old.split("\n"):
            if p.endswith("TRACE.md") and l.startswith("|"):
                cells = l.split(" | ")
                lines.append(" | ".join(cells[:1] + [turn(c) for c in cells[1:]]))
            else:
                lines.append(turn(l, lambda b, w: camel(b, w) or behind_module(b)))
        write(p, "\n".join(lines), old)


main()
