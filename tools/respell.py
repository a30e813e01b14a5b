#!/usr/bin/env python3
"""Brings the names of definitions and lemmas to snake case, once, after the kit's own script: heldTiming is held_timing, first-said is first_said.

usage: tools/respell.py [ROOT]

Renamed are names that an .antt file of the repository declares, in .antt and in .rt files, nowhere else. A name that a file takes from the library stays,
as do types, strings, and names of two words in comments. A lemma that would have its definition's name gets _lem.
"""

import glob
import re
import sys

ROOT = sys.argv[1] if len(sys.argv) > 1 else "."
DECLARED = re.compile(r"^ *(?:(?:abbrev|unfoldable|pub|ruleset) )*([^\s:{}();,.]+) (?:(?:\([^()]*\)|\{[^{}]*\}) )*: ")
WORD = re.compile(r"[A-Za-z_ℕ][\w'₀-₉∷◌+*/%^<≤≡-]*")
PLAIN = re.compile(r"^[a-z][A-Za-z0-9_'₀-₉-]*$")
FOREIGN = re.compile(r"^ *(?:ghost )?use (?:Rattle\.std\.|Rattle\.(?:core|bytes|io)\.|mathlib\.|lib\.|native\.|borrow\.|Prim\.|denote\.)[^{]*\{([^}]*)\}")
KEEP = {"logic-proved"}


def snake(name):
    name = re.sub(r"([a-z0-9'])([A-Z]+)", lambda m: m.group(1) + "_" + m.group(2).lower(), name)
    return name.replace("-", "_")


def files():
    for kind in ("specs/**/*.antt", "proofs/**/*.antt", "src/**/*.rt"):
        yield from sorted(glob.glob(f"{ROOT}/crates/*/{kind}", recursive=True))


def declared():
    """What is renamed to what."""
    names = set()
    for path in files():
        if path.endswith(".antt"):
            with open(path, encoding="utf-8") as f:
                for line in f:
                    m = DECLARED.match(line)
                    if m and PLAIN.match(m.group(1)):
                        names.add(m.group(1))
    old = {n for n in names if ("-" in n or re.search("[A-Z]", n)) and n not in KEEP}
    camel = {snake(n) for n in old if "-" not in n}
    new = {n: snake(n) + ("_lem" if "-" in n and snake(n) in camel | (names - old) else "") for n in old}
    return new | {n: n + "_lem" for n in (names - old) & camel}


def pieces(line, code):
    """The line in pieces: whether each is text (a comment or a string), and the piece."""
    at = 0
    mark = "//" if code else "--"
    for m in re.finditer(r'"(?:[^"\\]|\\.)*"|' + mark + ".*$", line):
        if m.group(0).startswith("--") and m.start() and line[m.start() - 1] not in " ":
            continue
        yield False, line[at : m.start()]
        yield m.group(0)[:2] != mark and "string" or "comment", m.group(0)
        at = m.end()
    yield False, line[at:]


def turned(text, names, code):
    out = []
    foreign = set()
    for line in text.split("\n"):
        m = FOREIGN.match(line)
        if m:
            foreign |= {w.strip().split(" as ")[-1] for w in m.group(1).split(",")}
    for line in text.split("\n"):
        parts = []
        for kind, piece in pieces(line, code):
            if kind == "string":
                parts.append(piece)
                continue

            def new(m):
                w = m.group(0)
                if w in foreign or w not in names or m.string[: m.start()].endswith("tie."):
                    return w
                if kind == "comment" and "-" in w:
                    return w
                return names[w]

            parts.append(WORD.sub(new, piece))
        out.append("".join(parts))
    return "\n".join(out)


def main():
    names = declared()
    changed = 0
    for path in files():
        with open(path, encoding="utf-8") as f:
            old = f.read()
        code = path.endswith(".rt")
        new = turned(old, {n: to for n, to in names.items() if not code or n != n.lower() or "-" in n}, code)
        if new != old:
            changed += 1
            with open(path, "w", encoding="utf-8") as f:
                f.write(new)
    print(f"{len(names)} names, {changed} files")


main()
