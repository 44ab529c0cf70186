#!/usr/bin/env python3
"""Brings the names of this repository's own definitions and lemmas to today's spelling: words in snake case, constants with underscores, lemmas' parts joined by dashes.

usage: python3 tools/respell.py [--list]     at the top of the repository, once, after port.py

A name that specs/ declares, a field or a constructor: `okLists` becomes ok_lists, `x-room` x_room, `NET-ROW` NET_ROW. A lemma keeps the dashes between its parts, and each part is spelled so.
Types and modules keep their names. A name is left, and said, where its new spelling stands already in the repository, or where the library has a name of that spelling.
"""
import collections
import glob
import re
import sys

# Where the rule would give two things one name, or a definition the name of a crate.
SPECIAL = {"line-of": "traced_line", "page-of": "built_page", "takeOut": "taken_out", "root-pair": "root_pair_is", "endX": "end_x_at", "endY": "end_y_at", "page-graph": "graph_of_page", "pageText": "text_of_page", "getD-before": "get_or-before", "putLast": "put_last", "put_last": "put_last_lem"}
# Names that stand in two modules, of which no file brings in both.
BOTH = {"countAt", "putLast", "first-at", "inOrder", "goesOn", "end-x", "end-y", "noEnds", "no-ends", "rootPair"}

WORD = re.compile(r"[A-Za-z][A-Za-z0-9_'′?₀-₉]*(?:-[A-Za-z0-9][A-Za-z0-9_'′?₀-₉]*)*")
STANDS = re.compile(r"(?<![A-Za-z0-9_.'-])" + WORD.pattern + r"(?![A-Za-z0-9_.'-])")
HEAD = re.compile(r"^( *)(?:abbrev pub |abbrev |unfoldable pub |unfoldable |pub |)([A-Za-z][^\s():{}]*) :(?=\s)")
BLOCK = re.compile(r"^( *)(?:pub )?(record|data) ([^\s():{}]+)")


def files(kinds=("specs", "proofs")):
    return [f for k in kinds for f in sorted(glob.glob(f"crates/*/{k}/**/*.antt", recursive=True))]


def declared():
    """{name: set of 'spec', 'lemma', 'member', 'type'}."""
    out = collections.defaultdict(set)
    for f in files():
        spec = "/specs/" in f
        inside = None
        for line in open(f, encoding="utf-8"):
            if line.strip() == "" or line.lstrip().startswith("--"):
                continue
            indent = len(line) - len(line.lstrip())
            b = BLOCK.match(line)
            if b:
                out[b.group(3)].add("type")
                inside = indent
                continue
            if inside is not None and indent <= inside:
                inside = None
            m = HEAD.match(line)
            if m:
                out[m.group(2)].add("member" if inside is not None else "spec" if spec else "lemma")
    return out


def snake(part):
    """`okLists` is ok_lists; a name in capitals stays."""
    if re.fullmatch(r"[A-Z0-9_]+", part) or not re.search(r"[a-z0-9][A-Z]", part) or part[0].isupper():
        return part
    return re.sub(r"(?<=[a-z0-9'])([A-Z]+)", lambda m: "_" + m.group(1).lower(), part)


def renamed(decl):
    out = {}
    whole = {}
    for n, kinds in decl.items():
        if "type" in kinds:
            continue
        if kinds & {"spec", "member"}:
            new = "_".join(snake(p) for p in n.split("-"))
            if new != n:
                whole[n] = new
    whole.update({n: new for n, new in SPECIAL.items() if n in decl})
    out.update(whole)
    parts = sorted((n for n in whole if "-" in n and "spec" in decl[n]), key=len, reverse=True)
    for n, kinds in decl.items():
        if kinds == {"lemma"}:
            new = n
            for d in parts:
                new = re.sub(r"(?:(?<=^)|(?<=-))" + re.escape(d) + r"(?=-|$)", whole[d], new)
            new = "-".join(snake(p) for p in new.split("-"))
            if new != n:
                out[n] = new
    return out


def foreign():
    """The names that proofs and specs import from modules that are not this repository's."""
    own = {f"Rattle.{c.split('/')[1]}." for c in glob.glob("crates/*/")}
    out = set()
    for f in files() + sorted(glob.glob("crates/*/src/**/*.rt", recursive=True)):
        for m in re.finditer(r"^(?:ghost )?use ([^\s{]+)\{([^}]*)\}", open(f, encoding="utf-8").read(), flags=re.M):
            if not any(m.group(1).startswith(o) for o in own):
                out |= {w.strip() for w in m.group(2).split(",")}
    return out


def main():
    decl = declared()
    names = renamed(decl)
    stand = collections.Counter()
    for f in files():
        for line in open(f, encoding="utf-8"):
            stand.update(STANDS.findall(line.split("--")[0]))
    out = foreign()
    for n, new in sorted(names.items()):
        if n in out or new in out:
            print(f"left, the library has it: {n} {new}")
            del names[n]
    back = collections.defaultdict(list)
    for n, new in names.items():
        back[new].append(n)
    for new, olds in sorted(back.items()):
        if (len(olds) > 1 or new in stand) and not set(olds) <= BOTH:
            print(f"left, two names would be one: {' '.join(olds)} {new} ({stand[new]} times now)")
            for n in olds:
                del names[n]
    if "--list" in sys.argv:
        for n, new in sorted(names.items()):
            print(n, new)
        return
    for f in files() + sorted(glob.glob("crates/*/src/**/*.rt", recursive=True)) + sorted(glob.glob("crates/*/must-fail/*.edit")):
        text = open(f, encoding="utf-8").read()
        new = re.sub(r"[^\n]*\n?", lambda m: turned(m.group(0), names, f), text)
        if new != text:
            open(f, "w", encoding="utf-8").write(new)
    print(f"{len(names)} names")


def turned(line, names, f):
    code, comment = line, ""
    if f.endswith(".rt") and "//" in line:
        at = line.index("//")
        code, comment = line[:at], line[at:]
    if f.endswith(".edit") and not re.match(r"(old|new): ", line):
        code, comment = "", line
    return WORD.sub(lambda m: names.get(m.group(0), m.group(0)), code) + comment


if __name__ == "__main__":
    main()
