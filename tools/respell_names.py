#!/usr/bin/env python3
"""Brings the definitions and lemmas of this repository to snake case, once, after the kit's port.py.

usage: tools/respell_names.py     at the top of the repository

A name of our own is one that a file of specs/ or proofs/ gives a signature, or that a record there has as a field or
its constructor. Of those with a dash each gets an underscore for every dash (a type gets camel case), in the files of specs/ and proofs/, in
the clauses of src/ (lines that begin with a clause's word, and `ghost use` lines), in must-fail/*.edit, and between
backticks in README.md and docs/. The names that Rattle makes (goals, invariants, measures) keep theirs. It stops,
with nothing written, where two names would fall together.
"""

import os
import re
import sys

WORD = r"[^\s(){}\[\],;.`:«»]+"
SIGNATURE = re.compile(rf"^\s*(?:(?:abbrev|unfoldable|pub|data|record|ruleset)\s+)*({WORD})\s+(?:[({{].*)?:\s")
TOKEN = re.compile(r"[^\s(){}\[\],;.`:«»]+")
MADE = re.compile(r":\s*(?:goal|need|given)\.")
CLAUSE = re.compile(r"^\s*(?:ghost\b|requires\b|ensures\b|prove!)")


def files(*ends):
    for folder, dirs, names in os.walk("crates"):
        dirs[:] = sorted(d for d in dirs if d != "out")
        for n in sorted(names):
            if n.endswith(ends):
                yield os.path.join(folder, n)


def read(p):
    with open(p, encoding="utf-8") as f:
        return f.read()


def own():
    """The names with a signature in specs/ or proofs/, but for those that Rattle makes."""
    ours, made = set(), set()
    for p in files(".antt"):
        for line in read(p).splitlines():
            if line.lstrip().startswith(("--", "use ", "pub use ")):
                continue
            m = SIGNATURE.match(line)
            if m:
                (made if MADE.search(line) else ours).add(m.group(1))
    return ours - made, made


def spelled(name):
    """A type in camel case, all else in snake case."""
    parts = name.split("-")
    if name[0].isupper():
        return "".join(p[0].upper() + p[1:] for p in parts)
    return "_".join(parts)


def main():
    if not os.path.isdir("crates"):
        sys.exit("respell_names: run it at the top of the repository")
    ours, made = own()
    turns = {n: spelled(n) for n in ours if "-" in n and re.fullmatch(r"[\w'-]+", n)}
    taken = {}
    for n in ours | made:
        taken.setdefault(turns.get(n, n), set()).add(n)
    together = {k: v for k, v in taken.items() if len(v) > 1}
    if together:
        sys.exit(f"respell_names: names would fall together: {together}")

    def turned(text):
        return TOKEN.sub(lambda m: turns.get(m.group(), m.group()), text)

    changed = 0
    for p in files(".antt", ".rt", ".edit"):
        old = read(p)
        if p.endswith(".antt"):
            new = "\n".join(line if line.lstrip().startswith("--") else turned(line) for line in old.split("\n"))
        elif p.endswith(".rt"):
            new = "\n".join(turned(line) if CLAUSE.match(line) else line for line in old.split("\n"))
        else:
            new = "\n".join(turned(line) if re.match(r"(?:old|new):\s*(?:ghost\b|requires\b|ensures\b)", line) else line for line in old.split("\n"))
        if new != old:
            changed += 1
            with open(p, "w", encoding="utf-8") as f:
                f.write(new)
    pages = [p for p in ["README.md"] + [os.path.join("docs", n) for n in sorted(os.listdir("docs")) if n.endswith(".md") and not n.startswith("PORT")] if os.path.isfile(p)]
    for p in pages:
        old = read(p)
        new = re.sub(r"`[^`\n]*`", lambda m: turned(m.group()), old)
        if new != old:
            changed += 1
            with open(p, "w", encoding="utf-8") as f:
                f.write(new)
    print(f"respell_names: {len(turns)} names, {changed} files")
    for n in sorted(turns):
        print(f"  {n} -> {turns[n]}")


main()
