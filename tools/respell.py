#!/usr/bin/env python3
"""Spells the repository's own definitions and lemmas as today's Rattle does: words in snake case, types in upper camel case.

usage: python3 tools/respell.py, at the top of the repository, once, right after the toolchain's port.py.

It renames what is defined or bound in specs/ and in the lemma files of proofs/, and what a function's proof folder defines for itself,
wherever the name stands in the crates. Names of goals, of steps, of the standard library and of src/ keep their spelling.
It stops without writing where two names would fall together; those that did have names chosen by hand.
"""

import glob
import re
import sys

NAME = re.compile(r"(?<![\w'.◌-])[^\W\d][\w'≡≤<>]*(?:-[\w'≡≤<>]+)+")
DOTTED = re.compile(r"(?<=\.)[^\W\d][\w'≡≤<>]*(?:-[\w'≡≤<>]+)+")
DEFINED = re.compile(r"(?m)^\s*(?:(?:abbrev|pub|unfoldable|opaque|record|data)\s+)*([^\s(){}:]+)\s*(?:[({][^=\n]*)?:(?:\s|$)")
LET = re.compile(r"\blet\s+([^\s(){}:=]+)\s*[:=]")
GENERATED = re.compile(r"(returns|invariant|decreases|loop|overflow)-")

# Names that would fall together with a module or with one another, and an alias that stands in src/ alone.
CHOSEN = {"Four-Bytes": "IsFourBytes", "In-book-order": "IsInBookOrder", "Keeps-order": "KeepsInorder", "Is-Refused": "IsRefused"}

# Definitions that get the name of the function whose result they give: a module of definitions and src/ are two rooms.
MIRRORS = {"joined-up-to", "lift-left", "lift-right", "most-levels", "turn-left", "turn-right"}


def blanked(path, text):
    return re.sub(r"--.*" if path.endswith(".antt") else r"//.*", "", text)


def respelled(name):
    if name in CHOSEN:
        return CHOSEN[name]
    parts = name.split("-")
    if not name[0].isupper():
        return "_".join(parts)
    return "".join(p[:1].upper() + p[1:] for p in parts)


def main():
    own = {l.split(":")[0].strip() for l in open("crates.txt") if l.strip() and not l.startswith("#")}
    paths = sorted(p for p in glob.glob("crates/*/specs/**/*.antt", recursive=True) + glob.glob("crates/*/proofs/**/*.antt", recursive=True) + glob.glob("crates/*/src/**/*.rt", recursive=True))
    texts = {p: open(p, encoding="utf-8").read() for p in paths}
    foreign, goals = set(), set()
    for p, t in texts.items():
        for m in re.finditer(r"use\s+(\S+?)\.\{([^}]*)\}", t):
            parts = m[1].split(".")
            if not (parts[0] == "Rattle" and parts[1] in own):
                foreign |= {n.strip().split(" ")[0] for n in m[2].split(",")}
        goals |= {m[1] for m in re.finditer(r"\bgoal\.([\w'-]+)", t)}
    names = set()
    for p, t in texts.items():
        if not p.endswith(".antt"):
            continue
        bare = blanked(p, t)
        in_folder = "/proofs/" in p and p.split("/proofs/")[1].count("/") > 0
        if in_folder:
            found = {m[1] for m in DEFINED.finditer(bare)} | {m[1] for m in LET.finditer(bare)}
            found -= goals | {n for n in found if GENERATED.match(n)}
        else:
            found = set(NAME.findall(bare))
        names |= {n for n in found if "-" in n and "·" not in n}
    names = (names - foreign) | set(CHOSEN)
    turned = {n: respelled(n) for n in names}
    words = set()
    for p, t in texts.items():
        if p.endswith(".antt"):
            words |= set(re.findall(r"[^\W\d][\w'-]*", blanked(p, t)))
    clashes = [f"{n} and {new}" for n, new in sorted(turned.items()) if new in words and n not in MIRRORS]
    by_new = {}
    for n, new in turned.items():
        by_new.setdefault(new, []).append(n)
    clashes += [" and ".join(sorted(ns)) for ns in by_new.values() if len(ns) > 1]
    if "--list" in sys.argv:
        print("\n".join(f"{n} {new}" for n, new in sorted(turned.items())))
    if clashes:
        print("names that fall together:", *clashes, sep="\n  ")
        return 1
    if "--list" in sys.argv:
        return 0
    for p, t in texts.items():
        new = NAME.sub(lambda m: turned.get(m[0], m[0]), t)
        new = DOTTED.sub(lambda m: turned.get(m[0], m[0]), new)
        if new != t:
            open(p, "w", encoding="utf-8").write(new)
    return 0


if __name__ == "__main__":
    sys.exit(main())
