#!/usr/bin/env python3
"""Brings the names that this repository declares in specs/ and proofs/ to the spelling of the language: words are joined
by `_`, and a dash stays only where a lemma is named after the outer call and then the inner one, as `length-revised`.

usage: python3 tools/respell.py [--list]      at the top of the repository

Files of crates/*/specs and crates/*/proofs are rewritten in place, and in crates/*/src the `ghost use` lines, the clauses and
the ghost fields. Names of functions, types, fields, goals, the library, strings and comments stay. `--list` only prints
each old name with its new one, and names the new ones that some other thing already has.
"""

import os
import re
import sys

NAME = r"[^\s(){}\[\];:,«»λ.]+"
DECLARED = re.compile(r"\s*(?:abbrev |unfoldable |mutual )?(?:pub )?(?:abbrev |unfoldable |data |record |ruleset )?(" + NAME + r"(?:\s+" + NAME + r")*)\s*:\s")
PARAMETERS = re.compile(r"[({]((?:" + NAME + r"\s+)*" + NAME + r")\s*:\s")
LET = re.compile(r"\blet (" + NAME + r")")
TOKEN = re.compile(NAME)
GENERATED = re.compile(r":\s*(?:goal|choice|given|need)\.")
OUTER = ("length-",)


def files(folders, ending):
    for crate in sorted(os.listdir("crates")):
        for folder in folders:
            for at, inner, names in os.walk(os.path.join("crates", crate, folder)):
                inner.sort()
                for name in sorted(names):
                    if name.endswith(ending):
                        yield os.path.join(at, name)


def read(path):
    with open(path, encoding="utf-8") as f:
        return f.read()


def declared():
    """The names with a dash that the repository declares itself, without the names of goals."""
    found, goals = set(), set()
    for path in files(("specs", "proofs"), ".antt"):
        for line in read(path).split("\n"):
            line = line.split("--")[0] if line.lstrip().startswith("--") else line
            m = DECLARED.match(line)
            if m:
                (goals if GENERATED.search(line) else found).update(m.group(1).split())
            if not GENERATED.search(line):
                for m in PARAMETERS.finditer(line):
                    found.update(m.group(1).split())
                found.update(LET.findall(line))
    return {n for n in found - goals if re.fullmatch(r"[a-z][A-Za-z0-9_'-]*", n) and "-" in n}, goals


def renamed():
    """The names with a dash that an import gives something."""
    found = set()
    for path in list(files(("specs", "proofs"), ".antt")) + list(files(("src",), ".rt")):
        found.update(re.findall(r"\bas (" + NAME + ")", " ".join(re.findall(r"^[ \t]*(?:pub )?(?:ghost )?use [^;\n]*", read(path), re.M))))
    return {n for n in found if re.fullmatch(r"[a-z][A-Za-z0-9_'-]*", n) and "-" in n}


def spelled(names):
    new = {}
    for n in names:
        if n.startswith(OUTER):
            head, rest = n.split("-", 1)
            new[n] = head + "-" + rest.replace("-", "_")
        else:
            new[n] = n.replace("-", "_")
    return {n: m for n, m in new.items() if n != m}


def tokens(text, new):
    return TOKEN.sub(lambda m: new.get(m.group(0), m.group(0)), text)


def antt(text, new):
    return "\n".join(line if line.lstrip().startswith("--") else tokens(line, new) for line in text.split("\n"))


def closing(text, at):
    """Behind the brace that closes the one at `at`."""
    depth = 0
    for i in range(at, len(text)):
        depth += {"{": 1, "}": -1}.get(text[i], 0)
        if depth == 0:
            return i + 1
    return len(text)


CLAUSE = re.compile(r"^[ \t]*(?:pub )?(?:requires|ensures|ghost)\b(?! use)[^{};\n]*\{", re.M)
GHOST_USE = re.compile(r"^[ \t]*ghost use [^;]*;", re.M)


def source(text, new):
    out, at = [], 0
    spans = [(m.start(), m.end()) for m in GHOST_USE.finditer(text)]
    spans += [(m.end() - 1, closing(text, m.end() - 1)) for m in CLAUSE.finditer(text)]
    for start, end in sorted(spans):
        if start < at:
            continue
        out += [text[at:start], tokens(text[start:end], new)]
        at = end
    return "".join(out + [text[at:]])


def taken(new):
    """New names that stand somewhere already."""
    have = set()
    for path in files(("specs", "proofs"), ".antt"):
        have.update(t for line in read(path).split("\n") if not line.lstrip().startswith("--") for t in TOKEN.findall(line))
    rust = set()
    for path in files(("src",), ".rt"):
        rust.update(re.findall(r"[A-Za-z_][A-Za-z0-9_]*", re.sub(r"//.*", "", read(path))))
    return {n: m for n, m in new.items() if m in have}, {n: m for n, m in new.items() if m in rust}


def main():
    names, _ = declared()
    new = spelled(names | renamed())
    if "--list" in sys.argv:
        for n in sorted(new):
            print(n, "->", new[n])
        here, rust = taken(new)
        print("stands in specs or proofs already:", sorted(here.values()))
        print("stands in src already:", sorted(rust.values()))
        seen = {}
        for n, m in sorted(new.items()):
            if m in seen:
                print("fall together:", seen[m], n)
            seen[m] = n
        return
    for path in files(("specs", "proofs"), ".antt"):
        put(path, antt(read(path), new))
    for path in files(("src",), ".rt"):
        put(path, source(read(path), new))


def put(path, text):
    if text != read(path):
        with open(path, "w", encoding="utf-8") as f:
            f.write(text)


main()
