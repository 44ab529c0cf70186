#!/usr/bin/env python3
"""Brings the aliases of `use` lines to today's spelling, in the files that have them: `lies as liesIn` becomes `lies as lies_in`.

usage: python3 tools/respell_aliases.py       at the top of the repository, once, after tools/to_answers.py

An alias is left, and said, where its new spelling stands already in its file. In `src/` and `specs/` a dash becomes an underscore; elsewhere a dash parts a lemma's name.
"""
import glob
import re


def snake(part):
    return re.sub(r"(?<=[a-z0-9'])([A-Z]+)", lambda m: "_" + m.group(1).lower(), part)


def files():
    return glob.glob("crates/*/specs/*.antt") + glob.glob("crates/*/proofs/**/*.antt", recursive=True) + glob.glob("crates/*/src/**/*.rt", recursive=True)


def respelled(alias, spec):
    new = "-".join(snake(p) for p in alias.split("-"))
    # what port.py made of `widthOf` and `spotOf`
    return re.sub(r"_lem$", "", new.replace("-", "_") if spec else new)


def main():
    for path in files():
        text = new = open(path, encoding="utf-8").read()
        spec = "/specs/" in path or path.endswith(".rt")
        for line in re.findall(r"^(?:ghost |pub )?use [^\n]*", text, flags=re.M):
            for alias in re.findall(r" as ([a-z][\w'-]*)", line):
                to = respelled(alias, spec)
                if to == alias:
                    continue
                if re.search(r"(?<![\w.'-])" + re.escape(to) + r"(?![\w'-])", new):
                    print(f"{path}: {alias} is left, {to} stands there")
                    continue
                new = re.sub(r"(?<![\w'.-])" + re.escape(alias) + r"(?![\w'-])", to, new)
        if new != text:
            open(path, "w", encoding="utf-8").write(new)


if __name__ == "__main__":
    main()
