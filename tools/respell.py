#!/usr/bin/env python3
"""Respells the repository's own definitions and lemmas in snake case: times_of for times-of.

usage: python3 tools/respell.py [--list] [ROOT]     once, right after port.py

A name is the repository's own where a file of specs/ or proofs/ declares it, at the head of a signature, as a field or as a
constructor. Names that the prover makes (goals, steps) and names of other libraries keep their spelling, and so do
functions, strings, inputs and outputs. With --list it only prints the names, and those that fall together with another.
"""

import os
import re
import sys

TOKEN = re.compile(r"[^\s(){}\[\];,.⌜⌝\"`]+")
DECLARED = re.compile(r"^\s*(?:pub |abbrev |unfoldable |inductive |ruleset |data |record |\| )*([^\s(){}\[\];,.\"⌜⌝:]+)\s+:(?=\s)")
RULESET = re.compile(r"^\s*(?:pub )?ruleset (?:pub )?([^\s(){}\[\];,.]+)")
STRING = re.compile(r'"(?:[^"\\]|\\.)*"')
LOCAL = re.compile(r"(?:\blet |\bas |\bλ |\binl |\binr )([\w'-]+)(?= =| :| ↦|[,;}.]|$)", re.M)
QUOTED = re.compile(r"`[^`\n]+`")

# These would fall together with a member of a trait or with a function whose theorem they prove.
APART = {
    name: name.replace("-", "_") + "_lem"
    for name in ("touches-its-own", "places-free", "takes-held", "leaves-items", "passes-barred", "stays-barred", "books-close")
}


def files(root):
    for folder, dirs, names in os.walk(os.path.join(root, "crates")):
        dirs[:] = sorted(d for d in dirs if d not in ("out", "data"))
        for name in sorted(names):
            if name.endswith((".antt", ".rt", ".edit")):
                yield os.path.join(folder, name)


def pages(root):
    yield os.path.join(root, "README.md")
    for folder, _, names in os.walk(os.path.join(root, "docs")):
        for name in sorted(names):
            if name.endswith(".md"):
                yield os.path.join(folder, name)


def write(path, text):
    with open(path, "w", encoding="utf-8") as f:
        f.write(text)


def read(path):
    with open(path, encoding="utf-8") as f:
        return f.read()


def own_names(root):
    """The names with a dash that a specs/ or proofs/ file declares, but for the answers to goals."""
    found = set()
    for path in files(root):
        if not path.endswith(".antt"):
            continue
        for m in LOCAL.finditer(read(path)):
            if "-" in m.group(1).strip("-"):
                found.add(m.group(1))
        for line in read(path).split("\n"):
            text = line.split("--")[0] if line.lstrip().startswith("--") else line
            for m in (DECLARED.match(text), RULESET.match(text)):
                if m is None or "-" not in m.group(1).strip("-"):
                    continue
                if re.search(r":\s*(goal|Goals)\.", text):
                    continue
                if re.fullmatch(r"[\w'ℕℤ-]+", m.group(1)):
                    found.add(m.group(1))
    return found


def kept(root):
    """Names that come from elsewhere: imported from another library or made by the prover."""
    names = set()
    for path in files(root):
        if not path.endswith(".edit"):
            for m in re.finditer(r"use ([\w.+◌·'-]+)\.\{([^}]*)\}", read(path)):
                module = m.group(1)
                ours = module.startswith("Rattle.") and not module.startswith(("Rattle.std.", "Rattle.core."))
                if ours and "declared" not in module and not module.endswith(("Goals", "Given")):
                    continue
                for part in m.group(2).split(","):
                    names.add(part.strip().split(" as ")[0].strip())
    return names


def respelled(text, names):
    def turn(m):
        word = m.group(0)
        return APART.get(word, word.replace("-", "_")) if word in names else word

    return TOKEN.sub(turn, text)


def outside_strings(text, names):
    out, at = [], 0
    for m in STRING.finditer(text):
        out.append(respelled(text[at : m.start()], names))
        out.append(m.group(0))
        at = m.end()
    out.append(respelled(text[at:], names))
    return "".join(out)


def main():
    words = [a for a in sys.argv[1:] if a != "--list"]
    root = words[0] if words else "."
    names = own_names(root)
    foreign = kept(root)
    both = sorted(names & foreign)
    names -= foreign
    tokens = set()
    for path in files(root):
        tokens |= set(TOKEN.findall(read(path)))
    together = sorted(n for n in names if APART.get(n, n.replace("-", "_")) in tokens)
    print(f"{len(names)} names; also another library's, kept: {' '.join(both)}")
    print(f"already a word here: {' '.join(together)}")
    if "--list" in sys.argv:
        print("\n".join(sorted(names)))
        return
    for path in files(root):
        old = read(path)
        new = outside_strings(old, names) if path.endswith((".rt", ".edit")) else respelled(old, names)
        if new != old:
            write(path, new)
    for path in pages(root):
        old = read(path)
        new = QUOTED.sub(lambda m: respelled(m.group(0), names), old)
        if new != old:
            write(path, new)


main()
