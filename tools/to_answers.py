#!/usr/bin/env python3
"""Turns a function's Proof.antt into Invariants.antt and Answers.antt.

usage: python3 tools/to_answers.py NAMES OLD CRATE [FN..]

NAMES is the names.json that `rattle check --generated DIR --old-names` wrote for CRATE, OLD the folder with the crate before port.py (for the goals' old names).
A path `c.before.before.at.ensures` becomes `c.at.ensures`, a place bound by `let` or named by an abbreviation is put in, an answer that only searches is dropped. What it could not turn is said.
"""
import json
import os
import re
import sys

ID = r"[A-Za-z_λμ][\w'?₀₁₂₃-]*"
PATH = re.compile(r"⟪(\w[^⟫]*)⟫((?:\.[\w'?₀₁₂₃-]+)*)")


def norm(s):
    return s.replace("_", "-").lower()


def pair(parts):
    """Clauses that were one nested pair, as that pair."""
    return parts[0] if len(parts) == 1 else f"({parts[0]}, {pair(parts[1:])})"


class Fn:
    def __init__(self, crate, name, info):
        self.crate, self.name, self.info = crate, name, info
        self.places = {p[0]: (i, p) for i, p in enumerate(info["places"])}
        self.said = []

    def parent(self, p):
        return self.places[p][1][1]

    def chain(self, p):
        while p:
            yield p
            p = self.parent(p)

    def pick(self, fields, segs):
        """A path into a right-nested pair of the clauses."""
        n = len(fields)
        k = 0
        segs = list(segs)
        while k < n - 1 and segs and segs[0] == "1":
            segs.pop(0)
            k += 1
        if k < n - 1:
            if segs and segs[0] == "0":
                segs.pop(0)
            else:
                return None
        return [fields[k]] + segs

    def count(self, params, segs):
        """A path into a tuple over all parameters: 1.1.0 is the third."""
        k = 0
        segs = list(segs)
        while segs and segs[0] == "1":
            segs.pop(0)
            k += 1
        if segs and segs[0] == "0" and k < len(params):
            return [params[k]] + segs[1:]
        return None

    def path(self, p, segs):
        if not segs:
            return None
        f, rest = segs[0], segs[1:]
        f = "well_formed" if f == "well-formed" else f
        if f in ("args", "ranges", "lifetimes", "type_inv", "well_formed"):
            segs[0] = f
            return ["c"] + segs
        if f in ("requires", "pre"):
            pre = self.info["pre"]
            if pre and rest:
                q = self.pick(pre["fields"], rest)
                if q:
                    return ["c", "requires"] + q
            if pre and not rest:
                return [pair([f"c.requires.{x}" for x in pre["fields"]])]
            return ["c", "requires"] + rest
        have = {norm(self.places[q][1][2][0]) for q in self.chain(p)}
        if norm(f) not in have:
            for g in (re.sub(r"_lem$", "", f), re.sub(r"-?\d+$", "", f)):
                if norm(g) in have:
                    f = g
                    break
        for q in self.chain(p):
            i, place = self.places[q]
            if norm(place[2][0]) != norm(f):
                continue
            arm = self.info["arms"][i]
            new = place[2][1]
            if arm:
                for to, frm, way in arm[2]:
                    if norm(frm) == norm(f) and rest[: len(way)] == way and not to.endswith("-own"):
                        return ["c", arm[0], to.split("-")[-1]] + rest[len(way):]
                new = arm[0]
                if norm(f).startswith("enum"):
                    self.said.append(f"arm path {segs}")
            for a, b in place[4]:
                if rest and rest[0] == a:
                    rest = [b] + rest[1:]
                    break
            if rest and rest[0] == "ensures":
                cl = self.info["clauses"][i]
                # the clauses of the call that made this place
                if cl and len(rest) > 1:
                    w = self.pick(cl["fields"], rest[1:])
                    if w:
                        rest = ["ensures"] + w
                elif cl:
                    return [pair([f"c.{new}.ensures.{x}" for x in cl["fields"]])]
            if rest and rest[0] in ("auto", "kept", "new", "last") and place[3]:
                params = self.info["params"].get(place[3])
                word = {"kept": "auto", "last": "new"}.get(rest[0], rest[0])
                w = self.count(params, rest[1:]) if params else None
                rest = [word] + (w if w else rest[1:])
            return ["c", new] + rest
        self.said.append(f"no field {f} at {p}")
        return ["c"] + segs


def blocks(text):
    out, cur = [], []
    for line in text.split("\n"):
        if line.strip() == "" and cur:
            out.append("\n".join(cur))
            cur = []
        elif line.strip():
            cur.append(line)
    if cur:
        out.append("\n".join(cur))
    # a block that is indented belongs to the one before
    joined = []
    for b in out:
        if joined and b.startswith(" "):
            joined[-1] += "\n\n" + b
        else:
            joined.append(b)
    return joined


def strip_imports(blk):
    lines = blk.split("\n")
    uses = [l for l in lines if l.startswith("use ")]
    return uses, [l for l in lines if not l.startswith("use ")]


SIG = re.compile(r"^(pub |abbrev |abbrev pub )?(" + ID + r") : (.*)$")


def needs_in(text):
    return re.findall(r":\s+tie\.Need-([\w'₀-]+)", text)


def split_tuple(s):
    """'(a, b)' at top level -> [a, b], or None."""
    s = s.strip()
    if not (s.startswith("(") and s.endswith(")")):
        return None
    depth, parts, last = 0, [], 1
    for i, ch in enumerate(s):
        if ch in "([{":
            depth += 1
        elif ch in ")]}":
            depth -= 1
            if depth == 0 and i != len(s) - 1:
                return None
        elif ch == "," and depth == 1:
            parts.append(s[last:i])
            last = i + 1
    tail = s[last:-1]
    if tail.strip():
        parts.append(tail)
    return [p.strip() for p in parts] if len(parts) > 1 else None


TACTIC = re.compile(r"^(search rules|omega arith|omega \(.*\)|grind .*)$", re.S)


def nest(s, n):
    if n > 1 and TACTIC.match(s.strip()) and (split_tuple("(" + s.strip() + ")") is None):
        return [s.strip()] * n
    parts = split_tuple(s)
    if parts is None:
        return None
    if len(parts) == n:
        return parts
    if len(parts) == 2 and n > 2:
        more = nest(parts[1], n - 1)
        return [parts[0]] + more if more else None
    return None


class Turn:
    def __init__(self, fn, text, old_text):
        self.fn = fn
        self.text = text
        self.old_needs = needs_in(old_text)
        self.placefns, self.lemmas = {}, {}

    def place_of(self, typ):
        m = re.match(r"tie\.([\w'-]+)", typ.strip("() "))
        if not m:
            return None
        want = norm(m.group(1))
        for p in self.fn.places:
            if norm(p) == want:
                return p
        for i, p in enumerate(self.fn.info["places_by_name"]):
            if norm(p) == want:
                return self.fn.info["places"][i][0]
        return None

    def reduce(self, s):
        """Puts places in until nothing changes."""
        for _ in range(400):
            t = s
            # parent
            # fields are looked for from the answer's own place on, so it does not matter which of the places before it is named
            t = re.sub(r"⟪([^⟫]*)⟫\.before(?![\w-])", r"⟪\1⟫", t)
            t = re.sub(r"\(⟪([^⟫]*)⟫\)", r"⟪\1⟫", t)
            for name, f in self.placefns.items():
                t = re.sub(r"(?<![\w.'-])" + re.escape(name) + r" ⟪([^⟫]*)⟫(?!\.)", lambda m: f(m.group(1)), t)
            m = re.search(r"let (" + ID + r") = ⟪([^⟫]*)⟫ in ?", t)
            if not m:
                m = re.search(r"let (" + ID + r") : [^=\n]*tie\.[^=\n]* = ⟪([^⟫]*)⟫ in ?", t)
            if m:
                rest = t[m.end():]
                # a line that held only the let goes
                head = t[: m.start()]
                rest2 = re.sub(r"(?<![\w.'-])" + re.escape(m.group(1)) + r"(?![\w'-])", f"⟪{m.group(2)}⟫", rest)
                if rest2.startswith("\n") and head.rstrip(" ").endswith("\n"):
                    head = head.rstrip(" ").rstrip("\n")
                t = head + rest2
            m = re.search(r"let (" + ID + r") = (⟪[^⟫]*⟫(?:\.[\w'?-]+)+) in ?", t)
            while m:
                rest = t[m.end():]
                if re.search(r"(?<![\w.'-])" + re.escape(m.group(1)) + r"\.(?:\d|requires|ensures|auto|kept|new|last|pre)(?![\w-])", rest) or re.search(r"\.(requires|pre|ensures)$", m.group(2)):
                    rest2 = re.sub(r"(?<![\w.'-])" + re.escape(m.group(1)) + r"(?![\w'-])", lambda _: m.group(2), rest)
                    t = re.sub(r" *$", "", t[: m.start()]) + ("" if rest2.startswith("\n") and t[: m.start()].rstrip(" ").endswith("\n") else " " if not rest2.startswith("\n") else "") + (rest2.lstrip("\n") if rest2.startswith("\n") and t[: m.start()].rstrip(" ").endswith("\n") else rest2)
                    break
                m = re.compile(r"let (" + ID + r") = (⟪[^⟫]*⟫(?:\.[\w'?-]+)+) in ?").search(t, m.end())
            for name, (params, body) in self.lemmas.items():
                rx = re.compile(r"(?<![\w.'-])" + re.escape(name) + r" ⟪([^⟫]*)⟫((?: (?:" + ID + r"|\([^()]*\)|_))*)(?!\.)")
                mm = rx.search(t)
                if mm:
                    n = len(params) - 1
                    args = re.findall(r" (" + ID + r"|\([^()]*\)|_)", mm.group(2))
                    if len(args) < n:
                        continue
                    used, left = args[:n], args[n:]
                    b = re.sub(r"(?<![\w.'-])" + re.escape(params[0]) + r"(?![\w'-])", f"⟪{mm.group(1)}⟫", body)
                    for pn, av in zip(params[1:], used):
                        b = re.sub(r"(?<![\w.'-])" + re.escape(pn) + r"(?![\w'-])", lambda _: av, b)
                    t = t[: mm.start()] + "(" + b.strip() + ")" + "".join(" " + a for a in left) + t[mm.end():]
            if t == s:
                return s
            s = t
        self.fn.said.append("did not settle")
        return s

    def paths(self, s):
        def turn(m):
            segs = [x for x in m.group(2).split(".") if x]
            q = self.fn.path(m.group(1), segs)
            if q is None:
                self.fn.said.append("a place is handed on")
                return "c"
            return ".".join(q)
        return PATH.sub(turn, s)

    def body(self, s, var, place):
        s = re.sub(r"(?<![\w.'-])" + re.escape(var) + r"(?![\w'-])", f"⟪{place}⟫", s)
        return self.paths(self.reduce(s))

    def run(self):
        info = self.fn.info
        needs = [(norm(a), b, i) for i, (a, b) in enumerate(info["needs"])]
        asked_at = [a[0] for a in info["asked_at"]]
        asked = info["asked"]
        uses, decls, inv, answers, other = [], [], [], [], []
        header = []
        ordinal = 0
        pending = []
        for b in blocks(self.text):
            u, lines = strip_imports(b)
            uses += u
            lines = [l for l in lines if l.strip() or True]
            while lines and lines[0].startswith("--"):
                pending.append(lines.pop(0))
            if u and not decls and not answers:
                header = pending
                pending = []
            if not lines:
                continue
            decls.append((pending, lines))
            pending = []
        if not header and decls and decls[0][0] and not uses:
            header = []
        done_fns = False
        # helpers over places
        rest = []
        for com, lines in decls:
            m = SIG.match(lines[0])
            if not m:
                rest.append((com, lines, None))
                continue
            name, typ = m.group(2), m.group(3)
            if re.search(r"→ tie\.", typ) and typ.startswith("tie."):
                src = self.place_of(typ.split("→")[0])
                eq = re.match(re.escape(name) + r" (" + ID + r") = (.*)$", "\n".join(lines[1:]), re.S)
                if eq:
                    v, e = eq.group(1), eq.group(2)
                    self.placefns[name] = lambda p, v=v, e=e: self.reduce(re.sub(r"(?<![\w.'-])" + re.escape(v) + r"(?![\w'-])", f"⟪{p}⟫", e)).strip()
                    continue
            if re.match(r"\((" + ID + r") : tie\.", typ):
                eqs = "\n".join(lines[1:])
                unf = ""
                mu = re.match(r"unfolding ([^\n]*)\n", eqs)
                if mu:
                    unf = mu.group(1)
                    eqs = eqs[mu.end():]
                eq = re.match(re.escape(name) + r"((?: [\w'κ₀-]+)+) =(.*)$", eqs, re.S)
                if eq:
                    self.lemmas[name] = (eq.group(1).split(), eq.group(2).strip())
                    if unf:
                        self.fn.said.append(f"{name} unfolds {unf}")
                    continue
            rest.append((com, lines, m))
        for com, lines, m in rest:
            if m is None:
                other.append((com, lines))
                continue
            name, typ = m.group(2), m.group(3)
            mi = re.match(r"tie\.(invariant|decreases)-([\w'-]+)", typ)
            if mi:
                inv.append((com, self.loop(mi.group(1), mi.group(2), name, lines)))
                continue
            if typ.startswith("{M : Type 1}"):
                continue
            if not typ.startswith("tie.Need-"):
                other.append((com, lines))
                continue
            oldname = self.old_needs[ordinal] if ordinal < len(self.old_needs) else None
            k = None
            for w in (oldname, name, re.match(r"tie\.Need-([\w'-]+)", typ).group(1)):
                if w is None:
                    continue
                w = norm(w).replace("loop-holds", "loop-init").replace("loop-again", "loop-preserved").replace("loop-less", "loop-smaller")
                w = re.sub(r"^(.*)-holds$", r"\1-init", w)
                w = re.sub(r"^(.*)-again(-\d+)?$", r"\1-preserved\2", w)
                w = re.sub(r"^(.*)-less(-\d+)?$", r"\1-smaller\2", w)
                hit = [x for x in needs if x[0] == w]
                if hit:
                    k = hit[0][2]
                    break
            ordinal += 1
            if k is None:
                self.fn.said.append(f"no goal for {name} ({oldname})")
                continue
            goal = info["needs"][k][1]
            place = asked_at[k]
            answers.append((com, self.answer(name, goal, place, lines, asked.get(info["needs"][k][0]))))
        return header, uses, inv, answers, other

    def loop(self, kind, loop, name, lines):
        for (old, new), vars_ in self.fn.info["loops"]:
            if norm(old) == norm(loop):
                break
        else:
            self.fn.said.append(f"no loop {loop}")
            return lines
        changed = self.fn.info["changed"][[norm(l[0][0]) for l in self.fn.info["loops"]].index(norm(loop))]
        eq = "\n".join(lines[1:])
        unf = ""
        mu = re.match(r"unfolding [^\n]*\n", eq)
        if mu:
            unf = mu.group(0)
            eq = eq[mu.end():]
        m = re.match(re.escape(name) + r"((?: [\w'?₀₁₂₃_-]+)+) =(.*)$", eq, re.S)
        if not m:
            self.fn.said.append(f"invariant {loop} not read")
            return lines
        args, body = m.group(1).split(), m.group(2)
        names = {}
        n = len(vars_)
        for i, v in enumerate(vars_):
            names[args[i]] = f"l.initial.{v}" if changed[i] else f"l.{v}"
        cur = [v for v, ch in zip(vars_, changed) if ch]
        if len(args) != n + len(cur):
            self.fn.said.append(f"invariant {loop}: {len(args)} arguments for {n} and {len(cur)}")
        for a, v in zip(args[n:], cur):
            names[a] = f"l.{v}"
        body = re.sub(r"(?<![\w.'-])" + ID + r"(?! = )", lambda k: names.get(k.group(0), k.group(0)), body)
        word = f"{kind}-{new}"
        return [f"abbrev pub {word} : goal.{word}"] + ([unf.strip()] if unf else []) + [f"{word} l ={body}"]

    def answer(self, name, goal, place, lines, fields):
        unf = [l for l in lines[1:] if l.startswith("unfolding ")]
        eq = "\n".join(l for l in lines[1:] if not l.startswith("unfolding "))
        m = re.match(re.escape(name) + r"((?: [\w'κμ₀_-]+)*) =(.*)$", eq, re.S)
        if not m:
            self.fn.said.append(f"{name}: equation not read")
            return None
        args, body = m.group(1).split(), m.group(2)
        where = ""
        mw = re.search(r"\n +where\n", body)
        if mw:
            where = body[mw.start():]
            body = body[: mw.start()]
            self.fn.said.append(f"{goal}: where")
        var = args[0] if args else "c"
        body = self.body(body, var, place)
        if where:
            where = self.body(where, var, place)
        plain = body.strip()
        if (plain == "search rules" and not unf) or re.fullmatch(r"c\.[\w.'-]+\.auto\.[\w.'-]+", plain):
            return None
        if fields and len(fields) > 1:
            mlet = re.match(r"^(.*\bin\b\s*)(\(.*\))\s*$", body, re.S)
            parts = nest(plain, len(fields))
            head = ""
            if parts is None and "let " in plain:
                # the tuple behind the last let
                for mm in reversed(list(re.finditer(r"\bin\b", plain))):
                    parts = nest(plain[mm.end():], len(fields))
                    if parts:
                        head = plain[: mm.end()] + " "
                        break
            if parts:
                body = " " + head + "record { " + "; ".join(f"{f} = {p}" for f, p in zip(fields, parts)) + " }"
            else:
                way = []
                for i in range(len(fields)):
                    way.append(".".join(["1"] * i + (["0"] if i < len(fields) - 1 else [])))
                body = f" let both = {plain} in record {{ " + "; ".join(f"{f} = both.{w}" for f, w in zip(fields, way)) + " }"
                self.fn.said.append(f"{goal}: both")
        return [f"pub {goal} : goal.{goal}"] + unf + [f"{goal} c ={body}{where}"]


def write(crate, fn, header, uses, inv, answers, other):
    top = f"crates/{crate}/proofs/{fn}"
    uses = [u for u in uses if ".Tie as tie" not in u and ".Statement.{statement}" not in u and "Fn.Kinds" not in u and "PlainCycle" not in u]

    def needed(u, text):
        m = re.match(r"use ([^{]*)\.\{(.*)\}$", u)
        if not m:
            mod = re.match(r"use (\S+)(?: as (\S+))?$", u)
            if not mod:
                return u
            w = mod.group(2) or mod.group(1).split(".")[-1]
            return u if re.search(r"(?<![\w.'-])" + re.escape(w) + r"\.", text) else None
        keep = []
        for w in m.group(2).split(","):
            w = w.strip()
            nm = w.split(" as ")[-1].strip()
            bits = [x for x in nm.split("◌") if x]
            if all(re.search(r"(?<![\w'])" + re.escape(b) + r"(?![\w'])" if re.match(r"\w", b) else re.escape(b), text) for b in bits):
                keep.append(w)
        return f"use {m.group(1)}.{{{', '.join(keep)}}}" if keep else None

    def put(path, module, decls):
        text = "\n\n".join("\n".join(list(c) + list(d)) for c, d in decls)
        us = [x for x in (needed(u, text) for u in uses) if x]
        us.append(f"use Rattle.{crate}.proofs.{fn.replace('/', '.')}.{module} as goal")
        with open(path, "w") as f:
            f.write("\n".join(header + us) + "\n\n" + text + "\n")

    def names_of(d):
        m = re.match(r"(?:pub )?(?:record|data) ([^\s():{}]+)", d[0]) or re.match(r"(?:abbrev |unfoldable |pub )*(" + ID + r") :", d[0])
        return m.group(1) if m else None

    def uses_name(text, n):
        return re.search(r"(?<![\w.'-])" + re.escape(n) + r"(?![\w'-])", text)

    given, grown = [], bool(inv)
    text = "\n".join("\n".join(d) for _, d in inv)
    while grown:
        grown = False
        for c, d in other:
            n = names_of(d)
            if n and (c, d) not in given and uses_name(text, n):
                given.append((c, d))
                text += "\n".join(d)
                grown = True
    given = [x for x in other if x in given]
    other = [x for x in other if x not in given]
    if inv:
        out = []
        for c, d in given:
            d = list(d)
            if re.match(r"(record|data) ", d[0]):
                d = ["pub " + d[0]] + [re.sub(r"^(  )(?!pub )([\w'-]+ :)", r"\1pub \2", l) if d[0].startswith("record") else l for l in d[1:]]
            elif d[0].startswith("abbrev ") and not d[0].startswith("abbrev pub"):
                d[0] = "abbrev pub " + d[0][7:]
            elif d[0].startswith("unfoldable ") and not d[0].startswith("unfoldable pub"):
                d[0] = "unfoldable pub " + d[0][11:]
            elif not d[0].startswith(("pub ", "abbrev", "unfoldable")):
                d[0] = "pub " + d[0]
            out.append((c, d))
        put(f"{top}/Invariants.antt", "Given", out + inv)
    ans = [(c, d) for c, d in answers if d]
    if ans:
        text = "\n".join("\n".join(d) for _, d in other + ans)
        back = [n for n in (names_of(d) for _, d in given) if n and uses_name(text, n)]
        if back:
            uses.append(f"use Rattle.{crate}.proofs.{fn.replace('/', '.')}.Invariants.{{{', '.join(back)}}}")
        put(f"{top}/Answers.antt", "Goals", other + ans)
    os.remove(f"{top}/Proof.antt")


def main():
    names, old, crate = sys.argv[1:4]
    only = sys.argv[4:]
    info = json.load(open(names))
    for key, v in sorted(info.items()):
        m = re.match(r"Rattle-" + crate + r"-proofs\.(.*)\.Lts$", key)
        if not m:
            continue
        fn = m.group(1).replace(".", "/")
        if only and fn not in only:
            continue
        p = f"crates/{crate}/proofs/{fn}/Proof.antt"
        if not os.path.exists(p):
            continue
        text = open(p).read()
        if "as tie" not in text:
            print(f"{crate}::{fn}: by hand")
            continue
        o = f"{old}/crates/{crate}/proofs/{fn}/Proof.antt"
        f = Fn(crate, fn, v)
        try:
            parts = Turn(f, text, open(o).read() if os.path.exists(o) else text).run()
            write(crate, fn, *parts)
        except Exception as e:
            print(f"{crate}::{fn}: FAILED {type(e).__name__} {e}")
            continue
        for s in dict.fromkeys(f.said):
            print(f"{crate}::{fn}: {s}")


if __name__ == "__main__":
    main()
