#!/usr/bin/env python3
"""Respells the definitions and lemmas of this repository: words in snake case, types in camel case.

usage: python3 tools/respell.py     at the top of the repository, once, right after the toolchain's script that brings an older repository over

It collects what specs/ and proofs/ declare under a name with a dash (types, functions, lemmas, fields, constructors) and the few local names
of that form, and turns each such word in the .antt files, in the clauses of the .rt files and in backticks of the pages. Names that the
toolchain makes (goals, steps) and those of its library keep their dashes. Comments and strings are left; words there that were turned elsewhere
are listed, and so are names that fall together.
"""

import glob
import re
import subprocess

WORD = r"[^\s(){}\[\],;.:λ→`]+"
DASHED = re.compile(r"[A-Za-z][\w']*(?:-[\w']+)+")
LOCAL = {"at-2", "at-3", "at-4", "at-6", "entry-is", "is-high", "is-low", "is-settled", "marks-are", "no-climb", "now-read", "same-t", "sending-with", "store-sound", "told-cause", "whole-front"}


def read(path):
    with open(path, encoding="utf-8") as f:
        return f.read()


def declared(text):
    """The names that a file declares, but for answers to goals."""
    names = set()
    lines = text.split("\n")
    for i, line in enumerate(lines):
        top = re.match(r"^\s*(?:(?:abbrev|unfoldable|pub|record|data) )*(" + WORD + r")(?: [({].*)? :(?: .*)?$", line)
        if top and not line.lstrip().startswith("--") and ": goal." not in " ".join(lines[i : i + 2]):
            names.add(top.group(1))
        if re.match("(?:ghost |pub )?use ", line):
            names.update(re.findall(r" as (" + WORD + ")", line))
    return {n for n in names if "-" in n and DASHED.match(n)}


def turned(name):
    if name[0].isupper():
        return "".join(p[0].upper() + p[1:] for p in name.split("-"))
    return name.replace("-", "_")


def outside(text, comment, change, strings):
    """Applies change to a text's parts outside comments and strings."""
    kept = re.escape(comment) + r"[^\n]*" + (r'|b?"(?:[^"\\]|\\.)*"' if strings else "")
    out, at = [], 0
    for m in re.finditer(kept, text):
        out += [change(text[at : m.start()]), m.group(0)]
        at = m.end()
    return "".join(out) + change(text[at:])


def main():
    proofs = sorted(glob.glob("crates/*/specs/**/*.antt", recursive=True) + glob.glob("crates/*/proofs/**/*.antt", recursive=True))
    sources = sorted(glob.glob("crates/*/src/**/*.rt", recursive=True))
    pages = ["README.md"] + sorted(glob.glob("docs/*.md"))
    names = set(LOCAL)
    for p in proofs + sources:
        names |= declared(read(p))
    known = {}
    for n in sorted(names):
        if turned(n) in known:
            print(f"fall together: {n} and {known[turned(n)]}")
        known[turned(n)] = n

    def words(part):
        return re.sub(r"(?<![\w'-])" + DASHED.pattern + r"(?![\w'≢≡∷+-])", lambda m: turned(m.group(0)) if m.group(0) in names else m.group(0), part)

    for p in proofs + sources:
        comment = "--" if p.endswith(".antt") else "//"
        old = read(p)
        new = outside(old, comment, words, p.endswith(".rt"))
        had = set(re.findall(WORD, re.sub(re.escape(comment) + r"[^\n]*", "", old)))
        for n in sorted(had & names):
            if turned(n) in had:
                print(f"{p}: had both {n} and {turned(n)}")
        for line in re.findall(re.escape(comment) + r"[^\n]*", old):
            for n in sorted(set(DASHED.findall(line)) & names):
                print(f"{p}: a comment says {n}: {line.strip()}")
        if new != old:
            with open(p, "w", encoding="utf-8") as f:
                f.write(new)
    for p in pages:
        old = read(p)
        new = re.sub(r"`[^`\n]*`", lambda m: words(m.group(0)), old)
        if new != old:
            with open(p, "w", encoding="utf-8") as f:
                f.write(new)
    for c in sorted(glob.glob("crates/*/")):
        subprocess.run(["rt", "fmt"], cwd=c, stdout=subprocess.DEVNULL)
    print(f"{len(names)} names")


main()
