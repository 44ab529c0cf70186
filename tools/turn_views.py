#!/usr/bin/env python3
"""Turns the views of lent lists: `old x` and `new x` become today's `x.old`, `x.new` and, of a `&`, `x.now`; a view of a lent list takes the list.

usage: python3 tools/turn_views.py       at the top of the repository, once, after tools/respell.py
"""
import glob
import re

LENT = re.compile(r"Lent \(List (ℤ|ℕ)\)")


def views():
    """{name: (positions of the lent lists, word)} and the specs turned."""
    out = {}
    for f in glob.glob("crates/*/specs/*.antt"):
        text = open(f, encoding="utf-8").read()
        new = text
        for m in re.finditer(r"^abbrev pub (\w+) : (.*(?:Lent \(|Steps →|Words →).*)\n((?:\1 .*\n)+)", text, flags=re.M):
            name, typ, body = m.groups()
            parts = re.split(r" → ", typ)
            at = [i for i, p in enumerate(parts) if re.fullmatch(r"Lent \(List [ℤℕ]\)|Steps|Words", p)]
            word = "new" if re.search(r"\bnew \w", body) else "old"
            out[name] = (at, len(parts) - 1, word)
            t = LENT.sub(r"List \1", typ)
            b = re.sub(r"\((?:old|new) (\w+)\)", r"\1", body)
            b = re.sub(r"\b(?:old|new) (\w+)", r"\1", b)
            new = new.replace(m.group(0), f"abbrev pub {name} : {t}\n{b}")
        if f.endswith("clue_desk/specs/Views.antt"):
            new = re.sub(r"module _ \{A : Type 0\} where\n(?:  .*\n|\n)+?(?=abbrev)", "", new)
            new = re.sub(r"= Both \(Bor (\(List [ℤℕ]\))\) \(Bor \(List [ℤℕ]\)\)", lambda k: "= " + k.group(1)[1:-1], new)
            new = re.sub(r"^use (?:Rattle\.std\.specs\.Borrow|denote\.Triple\.Both)\..*\n", "", new, flags=re.M)
        new = re.sub(r"^use Rattle\.fixed\.specs\.Seen\..*\n", "", new, flags=re.M)
        if new != text:
            open(f, "w", encoding="utf-8").write(new)
    return out


def args_at(s, i, n):
    """The spans of n arguments from i on."""
    spans = []
    while len(spans) < n:
        while i < len(s) and s[i] == " ":
            i += 1
        if i >= len(s) or s[i] in ")}],;":
            return spans
        j = i
        if s[i] == "(":
            d = 0
            while j < len(s):
                d += s[j] == "("
                d -= s[j] == ")"
                j += 1
                if d == 0:
                    break
        while j < len(s) and s[j] not in " ()[]{},;":
            j += 1
        spans.append((i, j))
        i = j
    return spans


def clause(s, params, vs):
    def word(x, w):
        k = params.get(x)
        return f"{x}.{w}" if k == "&mut" else f"{x}.now" if k == "&" else None

    def one(m):
        r = word(m.group(2), m.group(1))
        return r or m.group(0)

    s = re.sub(r"\((old|new) (\w+)\)", lambda m: word(m.group(2), m.group(1)) or m.group(0), s)
    s = re.sub(r"(?<![\w.])(old|new) (\w+)", one, s)
    for name, (at, n, w) in vs.items():
        i = 0
        while True:
            m = re.compile(r"(?<![\w.])" + name + r"(?= )").search(s, i)
            if not m:
                break
            spans = args_at(s, m.end(), n)
            for k in sorted(at, reverse=True):
                if k < len(spans):
                    a, b = spans[k]
                    r = word(s[a:b], w)
                    if r:
                        s = s[:a] + r + s[b:]
            i = m.end()
    return s


def main():
    vs = views()
    for f in glob.glob("crates/*/src/*.rt"):
        text = open(f, encoding="utf-8").read()
        out, params, inside = [], {}, False
        lines = text.split("\n")
        sig = ""
        for line in lines:
            m = re.match(r"\s*(?:#\[.*\] )?(?:pub )?(?:extern \"C\" )?fn \w+", line)
            if m:
                sig, inside = "", True
            if inside and not re.match(r"\s+(requires|ensures|ghost)\b", line):
                sig += line + "\n"
                params = {a: (k or "").strip().replace("&'a ", "&") for a, k in re.findall(r"(\w+): (&(?:'\w+ )?mut |&(?:'\w+ )?)?", sig)}
                params = {a: "&mut" if "mut" in k else "&" if k else "" for a, k in params.items()}
                if line.startswith("{") or re.match(r"\s*\{$", line) or line.rstrip().endswith("{"):
                    inside = False
            if re.match(r"\s+(requires|ensures)\b", line) or (inside and out and "→" in line):
                line = clause(line, params, vs)
            out.append(line)
        new = re.sub(r"^ghost use Rattle\.(?:fixed\.specs\.Seen|clue_desk\.specs\.Views)\.\{old(?:, new)?\};\n", "", "\n".join(out), flags=re.M)
        if new != text:
            open(f, "w", encoding="utf-8").write(new)


if __name__ == "__main__":
    main()
