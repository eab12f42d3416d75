#!/usr/bin/env python3
"""Turns the names of this repository's definitions and lemmas to snake case, once, behind /opt/rattle/port/port.py.

usage: python3 tools/respell.py [FOLDER]      FOLDER: the repository's top (this one's, if none is given)

A name that a file of specs/ or proofs/ declares (a definition, a lemma, a field, a local one) and that is written in camel case or
with hyphens is written with underscores: `keptBelow` is `kept_below`, `held-by-both` is `held_by_both`. Types keep their capitals.
Names of the library that a file imports stay, and so do functions of src/, exported names, strings, inputs and outputs. Where two
names of a file would fall together, the definition of specs/ has the plain one, and the lemma ends in `_is`. Files are rewritten in
place; the documents' names are turned where they stand between backquotes. The landings tell of their day and stay.
"""

import glob
import os
import re
import sys

NAME = r"[A-Za-z_][A-Za-z0-9_']*(?:-[A-Za-z0-9_'\u2081]+)*"
TOKEN = re.compile(r"(?<![A-Za-z0-9_'\u25cc\u00b7-])" + NAME)
DECLARED = re.compile(r"\s*(?:(?:unfoldable|abbrev|pub|record|data|inductive)\s+)*(" + NAME + r")\s*:(?:\s|$)")
# a name whose type stands below it
ALONE = re.compile(r"\s*pub\s+(" + NAME + r")\s*$")
# names that no line declares so: parameters, and names given to an import; and the front of names that end in a sign of the field
ALSO = ("sentBit", "sinceThen", "tableLength", "messageLength", "reasonsOf", "goodCoder", "coderBehind")
FRONT = {"sumOf": "sum_of"}
LIBRARY = re.compile(r"^(?:ghost )?use (?!Rattle\.(?!std))([^{;]*)(?:\{([^}]*)\})?", re.M)

def snake(name):
    if name[0].isupper():
        return name
    name = re.sub(r"([a-z0-9])([A-Z])", lambda m: m.group(1) + "_" + m.group(2).lower(), name.replace("-", "_"))
    return re.sub(r"([A-Z])", lambda m: m.group(1).lower() if m.start() else m.group(1), name)


def files(top, *patterns):
    found = []
    for p in patterns:
        found += [f for f in glob.glob(os.path.join(top, p), recursive=True) if "/out/" not in f and "/target/" not in f]
    return sorted(set(found))


def read(path):
    with open(path, encoding="utf-8") as f:
        return f.read()


def declared(top):
    """The names that specs/ and proofs/ declare, each with the files that do."""
    names = {}
    for f in files(top, "crates/*/specs/**/*.antt", "crates/*/proofs/**/*.antt"):
        for line in read(f).split("\n"):
            m = DECLARED.match(line) or ALONE.match(line)
            if m and not line.lstrip().startswith("--"):
                names.setdefault(m.group(1), set()).add(f)
    return names


def tokens(text):
    return {m.group(0) for m in TOKEN.finditer(text) if text[m.start() - 1 : m.start()] != "."}


def turned(top, names):
    """What each name is turned to, and for names without hyphens that give way to a definition, the files in which they do."""
    new = {n: snake(n) for n in {*names, *ALSO} if snake(n) != n}
    here = {}
    for f in files(top, "crates/*/specs/**/*.antt", "crates/*/proofs/**/*.antt"):
        there = {}
        for t in tokens(read(f)) - of_library(read(f)):
            there.setdefault(new.get(t, t), set()).add(t)
        for together in there.values():
            if len(together) == 1:
                continue
            first = lambda n: ("/specs/" not in " ".join(names.get(n, ())), "-" in n, n not in new, n)
            for n in sorted(together, key=first)[1:]:
                if n in new:
                    new[n] = snake(n) + "_is"
                elif f in names.get(n, ()):
                    here.setdefault(n, set()).add(f)
    return new, here


def of_library(text):
    kept = set()
    for m in LIBRARY.finditer(text):
        kept |= {w for w in re.findall(NAME, m.group(2) or "")}
    return kept


def respell(text, new, kept=frozenset()):
    def one(m):
        w = m.group(0)
        before = text[max(0, m.start() - 5) : m.start()]
        if before.endswith(("tie.", "goal.", "with'")):
            return w
        return w if w in kept else new.get(w, w)

    return TOKEN.sub(one, text)


def quoted(text, new):
    return re.sub(r"`[^`\n]*`", lambda m: respell(m.group(0), new), text)


def imports(text, path, name):
    module = os.path.splitext(os.path.basename(path))[0]
    return any(re.search(r"(?<![\w'-])" + re.escape(name) + r"(?![\w'-])", m) for m in re.findall(r"\." + module + r"\.\{([^}]*)\}", text))


def main():
    top = sys.argv[1] if len(sys.argv) > 1 else os.path.dirname(os.path.dirname(os.path.abspath(__file__)))
    names_from = sys.argv[2] if len(sys.argv) > 2 else top
    names = declared(names_from)
    new, here = turned(names_from, names)
    new.update(FRONT)
    for n, where in sorted(here.items()):
        for f in files(top, "crates/*/specs/**/*.antt", "crates/*/proofs/**/*.antt"):
            text = read(f)
            if f in where or any(imports(text, w, n) for w in where):
                write(f, respell(text, {n: n + "_is"}))
                print(f"{n}_is in {os.path.relpath(f, top)}")
    for f in files(top, "crates/*/specs/**/*.antt", "crates/*/proofs/**/*.antt", "crates/*/src/**/*.rt"):
        text = read(f)
        write(f, respell(text, new, of_library(text)))
    for f in files(top, "README.md", "docs/*.md", "CONTRIBUTING.md", "host/**/README.md", "tests/**/README.md"):
        write(f, quoted(read(f), new))
    for n in sorted(new):
        if new[n] != snake(n):
            print(f"{n} is {new[n]}")
    print(f"respell: {len(new)} of {len(names)} names turned")


def write(path, text):
    if text != read(path):
        with open(path, "w", encoding="utf-8") as f:
            f.write(text)


if __name__ == "__main__":
    main()
