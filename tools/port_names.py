#!/usr/bin/env python3
"""Respells this repository's own names of definitions and lemmas in snake case, as port.py leaves some.

usage: python3 tools/port_names.py            at the top of the repository, once, after port.py

A part of a name between dashes that begins small and has a capital after a small letter or a digit is turned: blockAt becomes block_at,
length-xorB becomes length-xor_b; getD, the older word for what std calls get_or, becomes get_or. A record's field in specs/ loses its
dashes: stripe-lt becomes stripe_lt; one that would then have a definition's name keeps them. A lemma keeps the dashes that join its
parts. Types, facts and modules keep their capitals, functions of src/ their names.
It turns .rt, .antt and .edit files below crates/, and in README.md and docs/ the words of code that are names of definitions.
"""

import os
import re
import sys

NAME = re.compile(r"[A-Za-z_À-ɏͰ-Ͽ][\w'₀-₉]*(?:-[\w'₀-₉]+)*")
HUMP = re.compile(r"(?<=[a-z0-9])(?=[A-Z])")
FIELD = re.compile(r"(?m)^  +pub ([^\s:(){},.]+)\s*:(?!=)")
TOP = re.compile(r"(?m)^(?:abbrev |unfoldable |pub |ruleset )*([^\s:(){},.]+)\s*:(?!=)")
CODE = re.compile(r"(?s)```.*?```|`[^`\n]+`")
LOCAL = {"hS", "lB", "lN", "lR", "lS", "lT"}  # variables: a letter that says what it is of
# what port.py turned, where a definition gets that very name
BACK = {"crates/calls": {"is_lost": "is-lost"}, "crates/history": {"as_bytes": "as-bytes"}}


def files(top, endings):
    for folder, dirs, names in os.walk(top):
        dirs[:] = sorted(d for d in dirs if d not in ("out", ".git", "target"))
        for n in sorted(names):
            if n.endswith(endings):
                yield os.path.join(folder, n)


def read(path):
    with open(path, encoding="utf-8") as f:
        return f.read()


def put(path, old, new):
    if new != old:
        with open(path, "w", encoding="utf-8") as f:
            f.write(new)


def part(p):
    if p == "getD":
        return "get_or"
    if not p[:1].islower() or p in LOCAL or not HUMP.search(p):
        return p
    return HUMP.sub("_", p).lower()


def respelled(name):
    return "-".join(part(p) for p in name.split("-"))


def exchange(table, text):
    return NAME.sub(lambda m: table.get(m.group(0), m.group(0)), text)


def back(path, text):
    for crate, table in BACK.items():
        if path.startswith(crate) and path.endswith(".antt"):
            return exchange(table, text)
    return text


def main():
    code = {p: back(p, read(p)) for p in files("crates", (".rt", ".antt", ".edit"))}
    words, names, fields = set(), set(), set()
    for p, t in code.items():
        words |= set(NAME.findall(t))
        if p.endswith(".antt"):
            names |= set(TOP.findall(t)) | set(FIELD.findall(t))
        if p.endswith(".antt") and "/specs/" in p:
            fields |= {n for n in FIELD.findall(t) if "-" in n}
    turned = {w: respelled(w) for w in words if respelled(w) != w}
    if len(set(turned.values())) != len(turned):
        print("two names fall together")
        return 1
    standing = words | set(turned.values())
    for n in sorted(fields):
        new = respelled(n).replace("-", "_")
        if new in standing:
            print(f"kept: {n}, since {new} stands already")
        else:
            turned[n] = new
    for p, t in code.items():
        put(p, read(p), exchange(turned, t))
    shown = {w: n for w, n in turned.items() if w in names}
    for p in ["README.md"] + list(files("docs", (".md",))):
        old = read(p)
        put(p, old, CODE.sub(lambda m: exchange(shown, m.group(0)), old))
    print(f"{len(turned)} names turned")
    return 0


if __name__ == "__main__":
    sys.exit(main())
