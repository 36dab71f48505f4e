#!/usr/bin/env python3
"""Spells the definitions and lemmas of crates/*/specs and crates/*/proofs in snake case, once, after port.py.

usage: tools/snake_names.py [--list|--locals]      at the top of the repository; --list prints old and new and writes nothing; --locals does the names that a file has for itself

A word of a name begins a new part (cellDelay, cell_delay). A dash stays between two names of definitions or symbols (present-⊑), and is an underscore else.
A name is respelled in a file that declares it or imports it from a crate of this repository, behind a dot if it is a record's field here, and in clauses of .rt files.
What Rattle makes (goals, steps, fields of c) and what a Proof.antt declares for itself keep their spelling.
"""

import collections
import os
import re
import sys

WORD = r"[^\s(){}.;,@\"«»]+"
MARKS = r"(?:(?:pub|abbrev|unfoldable|pattern|axiom) )*"
TOP = re.compile(rf"^{MARKS}({WORD})(?: \{{[^{{}}]*\}})* :(?= |$)", re.M)
SHOWN = re.compile(rf"^ +(?:abbrev |unfoldable )*pub ({WORD})(?: \{{[^{{}}]*\}})* : ", re.M)
INNER = re.compile(rf"^ +(?:pub )?(?:field |constructor )?({WORD})(?: \{{[^{{}}]*\}})* : ", re.M)
BLOCK = re.compile(rf"^(?:pub )?(?:record|data) .*\n((?: +.*\n|\n)*)", re.M)
USE = re.compile(r"\buse (Rattle\.[^\s;{]+)(?:\.?\{([^}]*)\})?")
# names of the library that lemmas here are named after
KNOWN = {"length", "drop", "take", "append", "get_or", "set", "map", "and", "or", "not", "max", "min", "neg", "cond", "eqb", "reverse", "replicate", "swap"}
# where the plain spelling would meet another name
SPECIAL = {
    n: n.replace("-", "_") + "_lem"
    for n in ("absent-cell", "cell-ticks", "cells_left", "is-accepted", "lent_fits", "arcs-read", "least-cell", "lent-marks", "to-centre", "walked-in", "no-loads", "no-ticks", "sizes-fit", "ticks-fit", "try-share", "two-inputs", "two-outputs", "with-arc")
}


def texts(root):
    for folder, dirs, files in os.walk(os.path.join(root, "crates")):
        dirs[:] = sorted(d for d in dirs if d not in ("out", ".git"))
        for f in sorted(files):
            if f.endswith((".antt", ".rt", ".edit")):
                yield os.path.join(folder, f)


def camel(word):
    return re.sub(r"(?<=[a-z0-9'])[A-Z]+", lambda m: "_" + m[0].lower(), word)


def is_symbol(part):
    return not re.search(r"[A-Za-z0-9]", part)


def spelled(name, defined):
    if name in SPECIAL:
        return SPECIAL[name]
    if "<" in name:
        return name
    parts = [p if p[:1].isupper() else camel(p) for p in name.split("-")]
    old = name.split("-")
    out = parts[0]
    for i in range(1, len(parts)):
        both = all(is_symbol(p) or p in defined or p in KNOWN for p in (old[i - 1], old[i]))
        out += ("-" if both else "_") + parts[i]
    return out


LOCAL = re.compile(rf"^ *(?:(?:abbrev|unfoldable) )*({WORD})(?: \{{[^{{}}]*\}})* : (.*)$", re.M)


def locals_of(text, defined):
    """What a file declares for itself, in where blocks and modules: old and new."""
    words = set(re.findall(WORD, text))
    new = {}
    for m in LOCAL.finditer(text):
        n = m[1]
        if not re.match(r"[a-z]", n) or "tie.Need-" in m[2] or re.match(r"invariant-|decreases-", n):
            continue
        if re.search(r"[A-Z]", n) or "-" in n:
            s = spelled(n, defined)
            if s != n:
                new[n] = s + "_lem" if s in words else s
    return new


def main(argv):
    root = "."
    text = {p: open(p, encoding="utf-8").read() for p in texts(root)}
    tops, fields, defined = collections.defaultdict(set), collections.defaultdict(set), set()
    for p, t in text.items():
        if not p.endswith(".antt"):
            continue
        hand = os.path.basename(p) == "Proof.antt"
        for m in TOP.finditer(t):
            if "/specs/" in p:
                defined.add(m[1])
            if not hand:
                tops[m[1]].add(p)
        for m in SHOWN.finditer(t) if not hand else ():
            tops[m[1]].add(p)
        for b in BLOCK.finditer(t):
            for m in INNER.finditer(b[0]):
                fields[m[1]].add(p)
    if "--locals" in argv:
        count = 0
        for p, t in text.items():
            if p.endswith(".antt"):
                new = locals_of(t, defined)
                u = re.sub(rf"(\.?)({WORD})", lambda m: m[0] if m[1] else new.get(m[2], m[2]), t)
                if u != t:
                    count += len(new)
                    print(p, *(f"{a}:{b}" for a, b in new.items()))
                    with open(p, "w", encoding="utf-8") as f:
                        f.write(u)
        print(count, "names")
        return 0
    old = sorted(n for n in set(tops) | set(fields) if re.match(r"[a-z_]", n) and (re.search(r"[A-Z]", n) or "-" in n or n in SPECIAL))
    new = {n: spelled(n, defined) for n in old}
    new = {a: b for a, b in new.items() if a != b}
    if "--list" in argv:
        for a, b in new.items():
            print(a, b, "field" if a in fields else "")
        return 0
    back = collections.defaultdict(list)
    for a, b in new.items():
        back[b].append(a)
    for b, a in back.items():
        if len(a) > 1:
            print("meet:", b, *a)
        if (b in tops or b in fields) and b not in new:
            print("meet:", b, *a, "and one that is so spelled:", *sorted(tops[b] | fields[b]))
    token = re.compile(rf"(\.?)({WORD})")
    changed = 0
    for p, t in text.items():
        if p.endswith(".antt"):
            here = {m[1] for m in (*TOP.finditer(t), *SHOWN.finditer(t))} if os.path.basename(p) != "Proof.antt" else set()
            for b in BLOCK.finditer(t):
                here |= {m[1] for m in INNER.finditer(b[0])}
            for m in USE.finditer(t):
                if not re.match(r"Rattle\.std\b", m[1]):
                    here |= {w for item in (m[2] or "").split(",") for w in item.split()}
                    here.add(m[1].rsplit(".", 1)[-1])

            def turned(m):
                if m[2] not in new:
                    return m[0]
                if m[1] and m[2] not in fields and not (m[2] in tops and m[2] in here):
                    return m[0]
                if not m[1] and m[2] not in here and not (m[2] in fields and re.match(r" =(?= |$)", m.string[m.end() :]) and m.string[: m.start()].rstrip()[-1:] in "{;"):
                    return m[0]
                return m[1] + new[m[2]]

            u = token.sub(turned, t)
        else:
            u = token.sub(lambda m: m[1] + new.get(m[2], m[2]), t)
        if u != t:
            changed += 1
            with open(p, "w", encoding="utf-8") as f:
                f.write(u)
    print(f"{len(new)} names, {changed} files")
    return 0


if __name__ == "__main__":
    raise SystemExit(main(sys.argv[1:]))
