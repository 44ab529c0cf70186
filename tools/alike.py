#!/usr/bin/env python3
"""Says where specs/ and the lemma files of proofs/ differ from those of another folder by more than spelling.

usage: python3 tools/alike.py OLD        at the top of the repository; OLD is a checkout of the commit before the port

A file is alike if both have as many words, imports and comments aside, and one renaming of words, the same forth and back, turns one into the other. What is renamed by more than case, dashes
and underscores is listed at the end. Functions' own proofs, which are in folders of their own, are not compared.
"""
import collections
import glob
import os
import re
import sys

WORD = re.compile(r"◌[^\sA-Za-z0-9_(){}.,;'◌]+◌?|[A-Za-z_λμ⊎ℕ][A-Za-z0-9_'?₀-₉ℕℤ]*(?:-[A-Za-z0-9*≡+][A-Za-z0-9_'?₀-₉ℤℕ*≡+]*)*|[^\sA-Za-z0-9_(){}.,;']+|\d+")


def words(path):
    out = []
    for line in open(path, encoding="utf-8"):
        if re.match(r"(pub )?use ", line):
            continue
        line = re.sub(r"--.*", "", line).replace("″", "''").replace("′", "'")
        line = re.sub(r"(?<!\w)_([^\sA-Za-z0-9_(){}.,]+)_(?!\w)", r"◌\1◌", line)
        line = re.sub(r"(?<=[A-Za-z])·(?=[A-Za-z])", "", line)
        out += WORD.findall(line)
    return out


def plain(word):
    return word.lower().replace("-", "").replace("_", "")


def main():
    old = sys.argv[1]
    alike, renamed = 0, set()
    for path in sorted(glob.glob(f"{old}/crates/*/specs/*.antt") + glob.glob(f"{old}/crates/*/proofs/*.antt")):
        here = os.path.relpath(path, old)
        if not os.path.exists(here):
            print(f"{here}: is gone")
            continue
        a, b = words(path), words(here)
        forth, back = collections.defaultdict(set), collections.defaultdict(set)
        for x, y in zip(a, b):
            forth[x].add(y)
            back[y].add(x)
        if len(a) != len(b):
            print(f"{here}: {len(a)} words and {len(b)}")
        elif any(len(s) > 1 for s in [*forth.values(), *back.values()]):
            print(f"{here}: " + "; ".join(f"{x} is {' and '.join(sorted(s))}" for x, s in [*forth.items(), *back.items()] if len(s) > 1))
        else:
            alike += 1
            renamed |= {(x, y) for x, y in zip(a, b) if plain(x) != plain(y)}
    print(f"{alike} files alike; renamed by more than case, dashes and underscores: " + ", ".join(f"{x} {y}" for x, y in sorted(renamed)))


if __name__ == "__main__":
    main()
