#!/usr/bin/env python3
"""Spells the repository's own definitions and lemmas in snake case: `stops-of` becomes `stops_of`.

usage: python3 tools/respell.py        once, at the top of the repository, after the kit's port.py

A name is the repository's own where a file of specs/ or proofs/ declares it. A dash stays behind a type (`IsSorted-keeps`) and in what
the check names (goals, steps, arms). Functions of src/, strings, inputs and outputs keep their names; edits are read with the rest, so
that they go on fitting. It prints the names that fell together with one that stood already.
"""

import os
import re

DECLARED = re.compile(
    r"^[ \t]*(?:(?:abbrev|unfoldable|pub|record|data|ruleset|let) )*([^\s:(){}\[\];,.=]*-[^\s:(){}\[\];,.=]*)"
    r"(?: (?:\{[^}]*\}|\((?:[^()]|\([^()]*\))*\)))* ?:(?! goal\.)(?= |$)",
    re.M,
)
LOCAL = re.compile(r"\blet ([a-z]+(?:-[a-z]+)+)(?= [:=])")
TOKEN = re.compile(r"[^\s(){}\[\];,.:]+")


def texts(endings):
    for folder, dirs, files in os.walk("crates"):
        dirs[:] = sorted(d for d in dirs if d != "out")
        for name in sorted(files):
            if name.endswith(endings):
                path = os.path.join(folder, name)
                with open(path, encoding="utf-8") as file:
                    yield path, file.read()


def respelled(name):
    return name.replace("-", "_") if not name[0].isupper() else name


def main():
    own, met = set(), {}
    for path, text in texts((".antt", ".rt")):
        if path.endswith(".antt"):
            own.update(m.group(1) for m in DECLARED.finditer(text))
            own.update(m.group(1) for m in LOCAL.finditer(text))
        for word in TOKEN.findall(text):
            met.setdefault(word, set()).add(path)
    own = {name for name in own if not name[0].isupper() and "→" not in name}
    for name in sorted(own):
        if respelled(name) in met:
            print(f"falls together: {name} -> {respelled(name)}: {sorted(met[respelled(name)])[0]}")
    for path, text in texts((".antt", ".rt", ".edit")):
        new = TOKEN.sub(lambda m: respelled(m.group(0)) if m.group(0) in own else m.group(0), text)
        if new != text:
            with open(path, "w", encoding="utf-8") as file:
                file.write(new)
    print(f"{len(own)} names")


main()
