#!/usr/bin/env python3
"""In contracts: `was x` is `x.old` of a `&mut` parameter and `x.now` of a `&`, and `size x` is its length. Run once, at the top, after snake_names.py."""

import os
import re

PARAM = re.compile(r"\s*(?:mut )?(\w+)\s*:\s*(&\s*(?:'\w+ )?(mut )?)?")
HEAD = re.compile(r"(?m)^\s*(?:pub )?(?:(?:unsafe )?extern \"C\" )?fn \w+\(")


def parameters(text):
    out, depth, cur = [], 0, ""
    for ch in text:
        depth += (ch in "([<{") - (ch in ")]>}")
        if ch == "," and depth == 0:
            out.append(cur)
            cur = ""
        else:
            cur += ch
    return out + [cur] if cur.strip() else out


def turned(text):
    res, pos = "", 0
    for m in HEAD.finditer(text):
        j, depth = m.end(), 1
        while depth:
            depth += (text[j] == "(") - (text[j] == ")")
            j += 1
        kind = {}
        for q in parameters(text[m.end() : j - 1]):
            p = PARAM.match(q)
            if p:
                kind[p[1]] = "old" if p[3] else "now" if p[2] else None
        body = re.compile(r"(?m)\{\s*$").search(text, j)
        e = body.start() if body else len(text)

        def value(p):
            x = p[2]
            if not kind.get(x):
                return p[0]
            v = f"{x}.{kind[x]}"
            if p[1] == "was":
                return v
            return f"(length {v})" if p[0].startswith("(") else f"length {v}"

        new = re.sub(r"\((was|size) (\w+)\)", value, text[j:e])
        new = re.sub(r"(?<![\w.(])(was|size) (\w+)(?!\w)", value, new)
        res += text[pos:j] + new
        pos = e
    res += text[pos:]

    def kept(m):
        names = [k for k in (x.strip() for x in m[1].split(",")) if k not in ("was", "size")]
        return "ghost use Rattle.laws.specs.Lent.{" + ", ".join(names) + "};\n" if names else ""

    return re.sub(r"(?m)^ghost use Rattle\.laws\.specs\.Lent\.\{([^}]*)\};\n", kept, res)


for folder, dirs, files in os.walk("crates"):
    for f in files:
        if f.endswith(".rt"):
            p = os.path.join(folder, f)
            with open(p, encoding="utf-8") as it:
                t = it.read()
            if turned(t) != t:
                with open(p, "w", encoding="utf-8") as it:
                    it.write(turned(t))
