#!/usr/bin/env python3
"""Brings a crate's Proof.antt files to the names that today's check makes of goals and steps.

usage: tools/mend_proofs.py CRATE NAMES.json GENERATED [FUNCTION ..]

NAMES.json is what `rt check --generated DIR --old-names` writes for the crate, GENERATED the folder of `rt check --generated DIR`.
A goal goes by its new name, a step behind a context by its new field, `.before` falls away in front of a field, and `tie.spec` takes the goals in today's order.
Nothing is proved by it: the check decides.
"""

import json
import os
import re
import sys

WORD = r"[^\s(){}.;,@\"«»]+"


# names that tools/snake_names.py respelled: a row each, old, a tab, new
SNAKE = dict(l.rstrip("\n").split("\t") for l in open(os.path.join(os.path.dirname(os.path.abspath(__file__)), "snake_names.tsv")))


def norm(s):
    return s.replace("-", "_")


class Names:
    def __init__(self, d):
        self.d = d
        self.places = d["places"]
        self.by_name = d["places_by_name"]
        self.index = {}
        for i, p in enumerate(self.places):
            self.index.setdefault(norm(p[0]), i)
        for i, n in enumerate(self.by_name):
            self.index.setdefault(norm(n), i)
        self.parent = [self.index.get(norm(p[1])) if p[1] else None for p in self.places]
        self.needs = {}
        for (o, n), at in zip(d["needs"], d["asked_at"]):
            self.needs[norm(o)] = (n, at[0])
            self.needs.setdefault(norm(n), (n, at[0]))
        self.loops = {}
        for names, vs in d["loops"]:
            self.loops[norm(names[0])] = names[1]

    def place(self, name):
        return self.index.get(norm(name))

    def is_new(self, i):
        """Whether the older check had no such place."""
        return self.places[i][2][0].startswith("way_told")

    def was_at(self, i):
        while i is not None and self.is_new(i):
            i = self.parent[i]
        return i

    def anchor(self, i):
        """The place that has what place i had: i, or the arm that took it in."""
        a = self.d["arms"][i]
        if a and not self.final(i):
            for j in range(len(self.places)):
                if self.final(j) and self.d["arms"][j][0] == a[0] and i in self.chain(j):
                    return j
        return i

    def step_back(self, i):
        i = self.parent[self.was_at(i)]
        return None if i is None else self.was_at(i)

    def chain(self, i):
        out = []
        while i is not None:
            out.append(i)
            i = self.parent[i]
        return out

    def final(self, i):
        """Whether the arm that ends at place i is one step of its own now."""
        a = self.d["arms"][i]
        return bool(a) and self.by_name[i][1:] == a[0][1:]

    def new_parent(self, i):
        if self.final(i):
            arm = self.d["arms"][i][0]
            j = self.parent[i]
            while j is not None and self.d["arms"][j] and self.d["arms"][j][0] == arm and not self.final(j):
                j = self.parent[j]
            return j
        return self.parent[i]

    def new_chain(self, i):
        out = []
        while i is not None:
            out.append(i)
            i = self.new_parent(i)
        return out


def matching(text, i):
    """The place of the parenthesis that closes the one at i."""
    depth = 0
    while i < len(text):
        if text[i] in "([{":
            depth += 1
        elif text[i] in ")]}":
            depth -= 1
            if depth == 0:
                return i
        i += 1
    return -1


def opening(text, i):
    depth = 0
    while i >= 0:
        if text[i] in ")]}":
            depth += 1
        elif text[i] in "([{":
            depth -= 1
            if depth == 0:
                return i
        i -= 1
    return -1


PLAIN = {"args", "ranges", "fits", "good", "well-formed", "type-inv", "well_formed", "lifetimes", "type_inv"}
FIELDS = {"pre": "requires", "inv": "invariant", "taken": "true", "left": "false", "last": "new", "kept": "auto", "post": "ensures", "came": "branch-raw", "branch": "branch-raw", "type-inv": "type_inv", "well-formed": "well_formed", "ok": "type_inv"}
# what a step has: a name before one of these is a step's, whatever stands before it
STEP = {"given", "ensures", "result", "invariant", "inv", "true", "false", "taken", "left", "auto", "new", "last", "kept", "type-inv", "type_inv", "ok", "lifetimes", "branch", "came", "is", "told"}


def path_number(rest, k):
    """The index that a run of .1.1.0 from rest[k] on stands for, and how many parts it takes."""
    n, j = 0, k
    while j < len(rest) and rest[j] == "1":
        n += 1
        j += 1
    if j < len(rest) and rest[j] == "0":
        return n, j + 1
    return None, k


def binders(typ):
    """The arguments of a type: pairs of names (or None) and type, and what is left, the result."""
    out, i = [], 0
    while True:
        while i < len(typ) and typ[i].isspace():
            i += 1
        if i < len(typ) and typ[i] == "(":
            j = matching(typ, i)
            inside = typ[i + 1 : j]
            m = re.match(rf"((?:{WORD} )+): (.*)$", inside, re.S)
            if m:
                out.append((m[1].split(), m[2]))
                i = j + 1
                while i < len(typ) and typ[i].isspace():
                    i += 1
                if i < len(typ) and typ[i] == "→":
                    i += 1
                continue
        depth, j = 0, i
        while j < len(typ) and not (depth == 0 and typ[j] == "→"):
            depth += (typ[j] in "([{") - (typ[j] in ")]}")
            j += 1
        if j >= len(typ):
            return out, typ[i:]
        out.append(([None], typ[i:j].strip()))
        i = j + 1


def tie_place(names, typ):
    m = re.match(rf"^tie\.({WORD})", typ.strip())
    return names.place(m[1]) if m and not m[1].startswith("Need-") else None


class File:
    def __init__(self, text, names, spec_args, kappa, log):
        self.t, self.n, self.spec_args, self.kappa, self.log = text, names, spec_args, kappa, log
        self.kinds = {}  # local names whose result is a place
        self.params = {}  # local names: places of their first arguments

    def field(self, place, rest, here=None):
        """rest, the parts behind a context at an old place, in today's names; here is the place that it is at now."""
        n = self.n
        if not rest:
            return rest
        f = rest[0]
        if f in PLAIN or f in ("requires", "pre"):
            return [{"pre": "requires", "fits": "ranges", "good": "well_formed", "well-formed": "well_formed", "type-inv": "type_inv"}.get(f, f)] + rest[1:]
        start = n.chain(place) if place is not None else list(range(len(n.places)))
        if here is not None:
            start = start + [i for i in n.chain(here) if i not in start]
        hit = None
        for i in start:
            p = n.places[i]
            if norm(p[2][0]) == norm(f).lower() and f:
                hit = i
                break
            if norm(p[2][1]) == norm(f) and f:
                return [p[2][1]] + self.inner(i, rest[1:])
        if hit is None:
            if f.endswith("_lem"):
                # a step whose name a lemma had too
                return self.field(place, [f[:-4]] + rest[1:], here)
            if f[-1:].isdigit() and not f[-2:-1].isdigit() and self.known(f[:-1]):
                for i in start:
                    if norm(n.places[i][2][0]) == norm(f[:-1]):
                        return [n.places[i][2][1]] + self.inner(i, rest[1:])
            return rest
        # an arm that is one step now
        if place is not None:
            for i in n.chain(place if here is None else here):
                a = n.d["arms"][i]
                if a and n.final(i) and hit in self.folded(i):
                    for part, step, path in a[2]:
                        if norm(step) == norm(f) and path and [FIELDS.get(x, x) for x in rest[1 : 1 + len(path)]] == [FIELDS.get(x, x) for x in path]:
                            return [a[0], part] + rest[1 + len(path) :]
                    for part, step, path in a[2]:
                        if norm(step) == norm(f) and not path:
                            return [a[0], part] + rest[1:]
                    return [a[0]] + rest[1:]
        return [n.places[hit][2][1]] + self.inner(hit, rest[1:])

    def folded(self, i):
        out, j, arm = [i], self.n.parent[i], self.n.d["arms"][i][0]
        while j is not None and self.n.d["arms"][j] and self.n.d["arms"][j][0] == arm and not self.n.final(j):
            out.append(j)
            j = self.n.parent[j]
        return out

    def inner(self, i, rest):
        p = self.n.places[i]
        if not rest:
            return rest
        f = FIELDS.get(rest[0], rest[0])
        for old, new in p[4] or []:
            if rest[0] == old or f == old:
                f = new
                break
        rest = [f] + rest[1:]
        if f in ("new", "auto") and p[3] and len(rest) > 1:
            k, j = path_number(rest, 1)
            ps = self.n.d["params"].get(p[3])
            if k is not None and ps and k < len(ps):
                return [f, ps[k]] + rest[j:]
        return rest

    def back(self, place, target):
        """How many .before lead from a place to another, in today's chain."""
        chain = self.n.new_chain(place)
        if target in chain:
            return chain.index(target)
        t = self.n.anchor(target)
        if t in chain:
            return chain.index(t)
        for t in self.n.new_chain(target)[1:]:
            if t in chain:
                self.log("a place inside an arm: " + self.n.by_name[target])
                return chain.index(t)
        return None

    def moved(self, pair, k):
        """The pair of places, old and new, k times .before behind a pair."""
        old, new = pair
        at = old
        for _ in range(k):
            b = self.n.step_back(at)
            if b is None:
                self.log("too many .before")
                break
            at = b
        if k == 0:
            return pair
        b = self.back(new, at)
        if b is None:
            return (at, at)
        return (at, self.n.new_chain(new)[b])

    def rewrite(self, text, env, target=None):
        """The paths of text, with env the places of variables; target is the place that all of it is to be."""
        out, i = [], 0
        path = re.compile(r"\.(" + WORD + ")")
        head = re.compile(WORD)
        while i < len(text):
            c = text[i]
            if c == "(":
                j = matching(text, i)
                inside = text[i + 1 : j]
                new_inside = self.rewrite(inside, env)
                m, parts = j + 1, []
                while True:
                    k = path.match(text, m)
                    if not k:
                        break
                    parts.append(k[1])
                    m = k.end()
                place = self.kind_of(inside, env)
                out.append("(" + new_inside + ")" + self.tail(place, parts))
                i = m
                continue
            m = head.match(text, i)
            if m and (i == 0 or text[i - 1] not in "."):
                w = m[0]
                e, parts = m.end(), []
                while True:
                    k = path.match(text, e)
                    if not k:
                        break
                    parts.append(k[1])
                    e = k.end()
                if all(x == "before" for x in parts) and env.get(w) and env[w][0] != "step":
                    q = re.search(rf"({WORD}) $", "".join(out[-8:]))
                    want = self.params.get(q[1], [None])[0] if q else None
                    if want is None and target is not None and text.strip() == text[i:e]:
                        want = target
                    if want is not None:
                        chain = self.n.new_chain(env[w][1])
                        if self.n.anchor(want) in chain:
                            out.append(w + ".before" * chain.index(self.n.anchor(want)))
                            i = e
                            continue
                        self.log("not before " + self.n.by_name[env[w][1]] + ": " + self.n.by_name[want])
                if parts and w not in ("tie",):
                    place = env.get(w, self.pair(self.kinds.get(w)) if w not in self.params else None)
                    out.append(w + self.tail(place, parts))
                    i = e
                    continue
                out.append(w)
                i = m.end()
                continue
            out.append(c)
            i += 1
        return "".join(out)

    def tail(self, place, parts):
        if not parts:
            return ""
        k = 0
        while k < len(parts) and parts[k] == "before":
            k += 1
        rest = parts[k:]
        if place is None:
            # of an unknown thing: only what the names alone tell
            if rest and rest[0] not in PLAIN:
                if self.known(rest[0]) and len(rest) > 1 and rest[1] in STEP:
                    rest = self.field(None, rest)
                elif rest[0] in ("pre", "inv", "type-inv"):
                    rest = [FIELDS[rest[0]]] + rest[1:]
            return "".join("." + p for p in parts[:k] + rest)
        if place[0] == "step":
            return "".join("." + p for p in self.inner(place[1], parts))
        at = place[0]
        for _ in range(k):
            if self.n.step_back(at) is None:
                self.log("too many .before")
                break
            at = self.n.step_back(at)
        if rest:
            return "".join("." + p for p in self.field(at, rest, place[1]))
        b = self.back(place[1], at)
        if b is None:
            self.log("no way back")
            b = k
        return ".before" * b

    def known(self, f):
        return any(norm(p[2][0]) == norm(f) for p in self.n.places if p[2][0])

    def pair(self, i):
        return None if i is None else (i, self.n.anchor(i))

    def kind_of(self, text, env):
        """The old place of a term, if it is one of a context."""
        text = text.strip()
        while text.startswith("(") and matching(text, 0) == len(text) - 1:
            text = text[1:-1].strip()
        m = re.match(rf"^({WORD})((?:\.{WORD})*)$", text)
        if m:
            pair = env.get(m[1], self.pair(self.kinds.get(m[1])) if m[1] not in self.params else None)
            return self.walk(pair, m[2])
        m = re.match(rf"^({WORD}) ", text)
        if m and m[1] in self.kinds and m[1] in self.params:
            return self.pair(self.kinds[m[1]])
        if text.startswith("("):
            e = matching(text, 0)
            if re.match(rf"^((?:\.{WORD})+)$", text[e + 1 :]):
                return self.walk(self.kind_of(text[1:e], env), text[e + 1 :])
        return None

    def walk(self, pair, path):
        parts = path.split(".")[1:]
        if pair is None or pair[0] == "step" and parts:
            return None
        k = 0
        while k < len(parts) and parts[k] == "before":
            k += 1
        pair = self.moved(pair, k) if k else pair
        if k == len(parts):
            return pair
        if k == len(parts) - 1:
            for i in self.n.chain(pair[0]):
                if self.n.places[i][2][0] and norm(self.n.places[i][2][0]) == norm(parts[k]).lower():
                    if any(self.n.final(j) and i in self.folded(j) for j in range(len(self.n.places))):
                        return None
                    return ("step", i)
        return None

    def turn(self):
        t = self.t
        # names of this file
        decl = re.compile(rf"^((?:abbrev |pub |unfoldable )*)({WORD}) : (.*)$")
        lines = t.split("\n")
        blocks, cur = [], []
        for l in lines:
            if l and not l[0].isspace() and not l.startswith("--"):
                m = decl.match(l)
                if m or l.startswith(("module ", "use ", "record ", "data ", "pub record ", "mutual")):
                    blocks.append(cur)
                    cur = []
            cur.append(l)
        blocks.append(cur)
        # comments that end a block belong to the next
        fixed, carry = [], []
        for b in blocks:
            b = carry + b
            carry = []
            while b and (b[-1].startswith("--")):
                carry.insert(0, b.pop())
            if b:
                fixed.append(b)
        if carry:
            fixed[-1] += carry
        blocks = fixed
        needs, renamed = {}, {}
        # signatures first
        scope = []
        for b in blocks:
            i = next((k for k, l in enumerate(b) if l and not l.startswith("--")), None)
            if i is None:
                continue
            if b[i].startswith("module "):
                self.module_signatures(b[i:])
                continue
            for l in b[i + 1 :]:
                m = re.match(rf"^ +({WORD}) : (.*\btie\..*→.*)$", l)
                if m:
                    self.signature(m[1], m[2])
            m = decl.match(b[i])
            if m:
                self.signature(m[2], m[3])
                q = re.match(r"tie\.Need-(\S+)", m[3])
                if q:
                    hit = self.need(q[1])
                    if hit:
                        needs[hit[0]] = m[2]
                        renamed[m[2]] = hit[0]
                    else:
                        self.log("no goal for " + q[1])
        self.renamed = renamed
        out = []
        for b in blocks:
            out.append(self.block(b, {}, decl))
        t = "\n".join("\n".join(b) for b in out)
        t = self.branches(self.spec(t, needs))
        if re.search(r"\brules\b", t) and not re.search(r"(?m)^use .*\brules\b", t):
            t = "use borrow.Author.Rules.{rules}\n" + t
        alias = re.findall(r"(?m)^use Rattle\.[\w.]*\.proofs\.\S+ as (\S+)", t)
        for al in alias:
            if al != "tie":
                t = re.sub(rf"(?<![\w.]){al}\.({WORD})", lambda m: f"{al}." + SNAKE.get(m[1], m[1]), t)
        t = t.replace(".well-formed", ".well_formed").replace(".type-inv", ".type_inv")
        # own names
        own = {o: w for o, w in renamed.items() if o != w}
        brought = {w for m in re.finditer(r"(?m)^use [^\n{]*\{([^}]*)\}", t) for w in re.split(r"[,\s]+", m[1])}
        for b in blocks:
            for l in b:
                m = re.match(rf"^(?:  )?(?:abbrev |pub |unfoldable )*({WORD}) : ", l)
                if m and "-" in m[1] and m[1] not in renamed and not re.match(r"invariant-|decreases-", m[1]) and not m[1].endswith("-spec"):
                    own[m[1]] = norm(m[1]) + ("_lem" if norm(m[1]) in brought else "")
        t = re.sub(rf"(?<![^\s(){{}};,@])({WORD})(?=[\s(){{}}.;,@]|$)", lambda m: own.get(m[1], m[1]), t)
        t = re.sub(r"(?m)^pub (\S+)-spec( : \{M)", lambda m: "pub " + norm(m[1]) + "_spec" + m[2], t)
        t = re.sub(r"(?m)^(\S+)-spec =$", lambda m: norm(m[1]) + "_spec =", t)
        t = re.sub(r"(?m)^(\S+)-spec = ", lambda m: norm(m[1]) + "_spec = ", t)
        return t

    def module_signatures(self, b):
        ps = re.findall(rf"\(({WORD}) : tie\.({WORD})", b[0])
        for l in b[1:]:
            m = re.match(rf"^ +(?:abbrev |pub )*({WORD}) : (.*)$", l)
            if m:
                self.signature(m[1], m[2], [p[1] for p in ps])

    def signature(self, name, typ, outer=()):
        args = [self.n.place(x) for x in outer]
        bs, last = binders(typ)
        for vs, ty in bs:
            args += [tie_place(self.n, ty)] * len(vs)
        if tie_place(self.n, last) is not None:
            self.kinds[name] = tie_place(self.n, last)
        if args:
            self.params[name] = args

    def need(self, name):
        n = norm(name)
        for c in (re.sub(r"^(overflow|nonzero)_", "", n), n, n.replace("loop_again", "loop_preserved"), n.replace("loop_less", "loop_smaller"), n.replace("slice_bounds_", "part_"), n.replace("slice_bounds_", "slice_aggregate_")):
            if c in self.n.needs:
                return self.n.needs[c]
        m = re.match(r"same_length(?:_(\d+))?$", n)
        if m:
            shapes = [a for a in self.spec_args if a.startswith("shape_of-")]
            k = int(m[1] or 1) - 1
            if k < len(shapes):
                return (shapes[k], None)
        return None

    def types(self, text):
        """tie.X in a signature."""

        def one(m):
            w = m[1]
            if w.startswith("Need-"):
                hit = self.need(w[5:])
                return "tie.Need-" + (hit[0] if hit else w[5:])
            for kind in ("invariant-", "decreases-"):
                if w.startswith(kind) and norm(w[len(kind) :]) in self.n.loops:
                    return "tie." + kind + self.n.loops[norm(w[len(kind) :])]
            i = self.n.place(w)
            if i is not None:
                return "tie." + self.n.by_name[self.n.anchor(i)]
            return m[0]

        return re.sub(rf"(?<![\w.])tie\.({WORD})", one, text)

    def block(self, b, env, decl, indent=""):
        i = next((k for k, l in enumerate(b) if l.strip() and not l.strip().startswith("--")), None)
        if i is None or b[i].startswith(("use ", "record ", "data ", "pub record ")):
            return b
        if b[i].startswith("module "):
            inner = {}
            for m in re.finditer(rf"\(({WORD}) : tie\.({WORD})", b[i]):
                inner[m[1]] = self.pair(self.n.place(m[2]))
            head = b[: i] + [self.types(b[i])]
            sub, cur = [], []
            d = re.compile(rf"^  ((?:abbrev |pub |unfoldable )*)({WORD}) : (.*)$")
            for l in b[i + 1 :]:
                if d.match(l):
                    sub.append(cur)
                    cur = []
                cur.append(l)
            sub.append(cur)
            self.inside = inner
            res = head
            for s in sub:
                res = res + self.block(s, dict(inner), d, "  ")
            self.inside = {}
            return res
        m = decl.match(b[i])
        if not m:
            return b
        name, typ = m[2], m[3]
        local = dict(env)
        if env:
            # inside a module a name of the module needs no argument
            for k in self.kinds:
                local.setdefault(k, self.pair(self.kinds[k]))
        q = re.match(r"tie\.Need-(\S+)", typ)
        args = []
        if q:
            hit = self.need(q[1])
            args = [self.n.place(hit[1]) if hit and hit[1] else None]
            if hit and hit[1] is None:
                args = [self.shape_place(hit[0])]
        else:
            for vs, ty in binders(typ)[0]:
                args += [tie_place(self.n, ty)] * len(vs)
        # binders of the signature itself
        senv = dict(local)
        for a in re.finditer(rf"\(((?:{WORD} )+): tie\.({WORD})", typ):
            for v in a[1].split():
                senv[v] = self.pair(self.n.place(a[2]))
        more = 0
        while i + 1 + more < len(b) and b[i + 1 + more].startswith(indent + "  "):
            more += 1
        typ = "\n".join([typ] + b[i + 1 : i + 1 + more])
        new_sig = m[1] + name + " : " + self.body(typ, senv)
        head = b[:i] + (indent + new_sig).split("\n")
        b = b[: i + 1] + b[i + 1 + more :]
        body = "\n".join(b[i + 1 :])
        # clauses
        parts = re.split(rf"(?m)^({re.escape(indent)}{re.escape(name)}(?= ))", body)
        res = parts[0] if not parts[0].strip() or "unfolding" in parts[0] or parts[0].strip().startswith("--") else self.rewrite(self.types(parts[0]), senv)
        for k in range(1, len(parts), 2):
            rest = parts[k + 1]
            e = re.search(r"\s=(?=\s)", rest)
            if not e:
                res += parts[k] + rest
                continue
            pats = rest[: e.start()].split()
            cenv = dict(local)
            for v, pl in zip(pats, args):
                if pl is not None:
                    cenv[v] = (pl, pl) if q else self.pair(pl)
                else:
                    cenv.pop(v, None)
            for v in pats[len(args) :]:
                cenv.pop(v, None)
            res += parts[k] + rest[: e.end()] + self.body(rest[e.end() :], cenv, self.kinds.get(name))
        return head + res.split("\n") if body or len(b) > i + 1 else head

    def branches(self, t):
        """What a branch tells has names now: its parts, which were numbered."""
        joins = {}
        for m in re.finditer(r"( *)pub record By-\d+-(Joined\S+?)-(?:then|else|in)\S* : Type 0 where\n((?: +.*\n)*)", self.lts):
            deep = m[1] + "  "
            fs = re.findall(rf"(?m)^{deep}pub (\S+) :", m[3].split("\n\n")[0] + "\n")
            joins.setdefault(m[2], []).append(fs)
        for i, p in enumerate(self.n.places):
            if not re.match(r"Joined", p[0]):
                continue
            step, ways = p[2][1], joins.get(self.n.by_name[i], joins.get(p[0], []))
            pos = 0
            while True:
                k = t.find("." + step + ".branch-raw", pos)
                if k < 0:
                    break
                pos = k + 1
                e = k
                for fs in ways:
                    q = re.search(r"\(λ (\S+)\.\s", t[e : e + 4000])
                    if not q:
                        break
                    s = e + q.start()
                    e = matching(t, s) + 1
                    seg, v = t[s:e], q[1]
                    new = re.sub(rf"(?<![\w.]){v}\.0\.(taken|true|fact)(?![\w-])", f"{v}.{fs[0] if fs else 0}.true", seg)
                    new = re.sub(rf"(?<![\w.]){v}\.0\.(left|false)(?![\w-])", f"{v}.{fs[0] if fs else 0}.false", new)
                    for j, f in enumerate(fs):
                        new = re.sub(rf"(?<![\w.]){v}\.{j}(?![\d])", f"{v}.{f}", new)
                    t = t[:s] + new + t[e:]
                    e += len(new) - len(seg)
        return t

    def shape_place(self, shape):
        return None

    def body(self, text, env, target=None):
        """A term: `let x = path in` gives x a place."""
        env = dict(env)
        res, pos = "", 0
        cut = []
        let = re.compile(rf"\blet ({WORD}) = ")
        for m in let.finditer(text):
            # up to the ` in`
            depth, j = 0, m.end()
            while j < len(text):
                if text[j] in "([{":
                    depth += 1
                elif text[j] in ")]}":
                    depth -= 1
                elif depth == 0 and re.match(r"\sin\b", text[j:]):
                    break
                j += 1
            term = text[m.end() : j]
            kind = self.kind_of(term, env)
            if kind is not None:
                env[m[1]] = kind
                q = re.match(rf"^({WORD})((?:\.before)+)$", term.strip())
                if q and env.get(q[1]) and env[q[1]][0] != "step" and kind[0] != "step":
                    # a context has all that was before it
                    env[m[1]] = (kind[0], env[q[1]][1])
                    cut.append((m.end(), j, q[1]))
        for a, b, v in reversed(cut):
            text = text[:a] + v + text[b:]
        # binders with a type
        for a in re.finditer(rf"λ \(({WORD}) : tie\.({WORD})", text):
            env[a[1]] = self.pair(self.n.place(a[2]))
        return self.rewrite(self.types(text), env, target)

    def spec(self, t, needs):
        m = re.search(r"tie\.close\s*\(?\s*\(?tie\.spec", t)
        m = re.search(r"\(tie\.spec\b", t)
        if not m:
            self.log("no tie.spec")
            return t
        e = matching(t, m.start())
        inside = t[m.end() : e]
        items, i = [], 0
        while i < len(inside):
            c = inside[i]
            if c.isspace():
                i += 1
                continue
            if c == "(":
                j = matching(inside, i)
                items.append(inside[i : j + 1])
                i = j + 1
            else:
                q = re.match(r"[^\s()]+", inside[i:])
                items.append(q[0])
                i += len(q[0])
        nl = len(self.n.loops)
        # invariants and measures stand first
        inv = [x for x in items if re.match(r"(invariant-|decreases-|Inv|μ)", x)]
        rest = items[len(inv) :] if items[: len(inv)] == inv else [x for x in items if x not in inv]
        args = self.spec_args
        local = {v: k for k, v in needs.items()}
        # align what has no name
        got, a = {}, 0
        anchors = []
        for k, x in enumerate(rest):
            if x in local:
                anchors.append((k, args.index(local[x]) if local[x] in args else None))
        anchors = [p for p in anchors if p[1] is not None]
        bounds = [(-1, -1)] + anchors + [(len(rest), len(args))]
        for (k0, a0), (k1, a1) in zip(bounds, bounds[1:]):
            gap, room = rest[k0 + 1 : k1], args[a0 + 1 : a1]
            if len(gap) == len(room):
                for x, y in zip(gap, room):
                    got[y] = x
            else:
                for x in gap:
                    if not re.match(r"^\(λ c(?: κs)?\. (omega arith|tt|search rules)\)$", x):
                        self.log("not placed: " + x + " among " + " ".join(room))
        for k, ai in anchors:
            got[args[ai]] = rest[k]
        lines = inv[:]
        for y in args:
            x = got.get(y)
            if x is None:
                x = "(λ c κs. search rules)" if y in self.kappa else "(λ c. search rules)"
            elif x.startswith("("):
                _, at = self.n.needs.get(norm(y), (None, None))
                q = re.match(r"^\(λ (\S+?)(?: (κs))?\. ", x)
                if q and at:
                    x = self.body(x, {q[1]: (self.n.place(at), self.n.place(at))})
                if y in self.kappa and q and not q[2]:
                    x = x.replace("λ c.", "λ c κs.", 1)
                if y not in self.kappa and q and q[2]:
                    x = x.replace("λ c κs.", "λ c.", 1)
            lines.append(x)
        return t[: m.end()] + "\n    " + "\n    ".join(lines) + t[e:]


def main(argv):
    crate, names_file, gen = argv[1:4]
    only = set(argv[4:])
    d = json.load(open(names_file))
    name = os.path.basename(crate.rstrip("/"))
    for folder, dirs, files in os.walk(os.path.join(crate, "proofs")):
        if "Proof.antt" not in files:
            continue
        p = os.path.join(folder, "Proof.antt")
        rel = os.path.relpath(folder, os.path.join(crate, "proofs"))
        key = f"Rattle-{name}-proofs." + rel.replace("/", ".") + ".Lts"
        if only and rel.replace("/", ".") not in only:
            continue
        text = open(p).read()
        if key not in d:
            print("no names for", rel)
            continue
        g = os.path.join(gen, f"Rattle-{name}-proofs", rel)
        try:
            tie = open(os.path.join(g, "Tie.antt")).read()
            lts = open(os.path.join(g, "Lts.antt")).read()
        except OSError:
            print("nothing generated for", rel)
            continue
        m = re.search(r"pub spec :\s(.*?)\n  spec =", tie, re.S)
        spec_args = re.findall(r"\(answer : Need-(\S+?)(?: [^()]*)?\)", m[1]) if m else []
        kappa = set()
        for a in spec_args:
            q = re.search(rf"Need-{re.escape(a)} =\s*\(c : [^)]*\) →\s*(?:\(κs : |.*?\(κs :)", lts)
            q2 = re.search(rf"Need-{re.escape(a)} =\n(.*?)\n\n", lts, re.S)
            if q2 and "κs" in q2[1].split("→")[1] if q2 and "→" in q2[1] else False:
                kappa.add(a)
            elif a.endswith("-requires") or re.search(r"-requires-\d+$|-requires-", a):
                kappa.add(a)
        notes = []
        if not spec_args:
            print(rel + ": no goals are left, so no file")
            os.remove(p)
            continue
        f = File(text, Names(d[key]), spec_args, kappa, notes.append)
        f.lts = lts
        try:
            new = f.turn()
        except Exception as e:
            import traceback

            traceback.print_exc()
            print("FAILED", rel, e)
            continue
        for n in notes:
            print(rel + ":", n)
        if new != text:
            open(p, "w").write(new)


if __name__ == "__main__":
    main(sys.argv)
