#!/usr/bin/env python3
"""Brings the names that a file gives at an import (`use .. {gammaOf as crateGammaOf}`, `use .. as edid-burst`) to snake case, once, after tools/respell.py.

usage: tools/respell_imports.py [ROOT]

A name that would be one with another of its file is told, and has _call put behind it.
"""

import glob
import re
import sys

ROOT = sys.argv[1] if len(sys.argv) > 1 else "."
GIVEN = re.compile(r" as ([a-z]+[a-z0-9]*[A-Z-][A-Za-z-]*)")
WORD = re.compile(r"[A-Za-z_ℕ◌][\w'₀-₉∷◌+*/%^<≤≡-]*")


def snake(name):
    return re.sub(r"([a-z0-9])([A-Z]+)", lambda m: m.group(1) + "_" + m.group(2).lower(), name).replace("-", "_")


def named(text):
    """What each name given in the file is called; a function of that name beside it keeps its own."""
    own = {w for m in re.finditer(r"\{([^}]*)\}", text) for w in WORD.findall(m.group(1))}
    return {n: snake(n) + ("_call" if snake(n) in own else "") for n in GIVEN.findall(text)}


def main():
    for kind in ("specs/**/*.antt", "proofs/**/*.antt", "src/**/*.rt"):
        for path in sorted(glob.glob(f"{ROOT}/crates/*/{kind}", recursive=True)):
            with open(path, encoding="utf-8") as f:
                old = f.read()
            names = named(old)
            for n, to in names.items():
                if to.endswith("_call"):
                    print(f"{path}: {n} is {to}")
            new = WORD.sub(lambda m: names.get(m.group(0), m.group(0)), old)
            if new != old:
                with open(path, "w", encoding="utf-8") as f:
                    f.write(new)


main()
