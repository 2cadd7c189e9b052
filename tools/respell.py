#!/usr/bin/env python3
"""Brings the repository's own definitions and lemmas to one spelling: words in snake case, types in camel case.

usage: python3 tools/respell.py [--list]     at the top of the repository

A name is one that a file of specs/ or proofs/ gives to a definition, a field, a constructor or a lemma. Names that the toolchain makes
(goals, steps, loops) and names of src/ keep their spelling. In a .rt file only ghost text is read: `ghost use`, clauses, ghost fields.
In specs/ and in ghost text the tests on numbers are said `nat_lt` and `nat_le`.
"""
import glob
import os
import re
import sys

NAME = r"[A-Za-z\u0370-\u03ff][\w'\u2032-]*"
TOKEN = re.compile(r"(?<![\w'\u2032◌-])" + NAME + r"(?![\w'\u2032◌])")
HEAD = re.compile(r"^\s*(?:\|\s*)?((?:(?:abbrev|unfoldable|pub|record|data|module)\s+)*)(" + NAME + r")((?:\s+[({].*?[)}])*)\s*:\s*(.*)$")
MADE = ("Answers.antt", "Invariants.antt", "Proof.antt")  # a file of a function's proof: most names there are the toolchain's
TESTS = {"ltb": "nat_lt", "leb": "nat_le"}


def files(*patterns):
    return sorted(f for p in patterns for f in glob.glob(p, recursive=True) if "/out/" not in f)


def spelled(name, is_type):
    name = name.replace("\u2032", "'")
    if is_type:
        return "".join(p[:1].upper() + p[1:] for p in name.split("-"))
    name = name.replace("-", "_")
    return re.sub(r"(?<=[a-z0-9])[A-Z]", lambda m: "_" + m.group(0).lower(), name)


def own_names():
    """Each own name whose spelling changes, with its new one and the files that declare it."""
    names = {}
    for f in files("crates/*/specs/**/*.antt", "crates/*/proofs/**/*.antt"):
        with open(f) as g:
            lines = g.read().split("\n")
        for line in lines:
            m = HEAD.match(line)
            if not m or line.lstrip().startswith("--"):
                continue
            words, name, _, kind = m.groups()
            if kind.startswith("goal.") or re.match(r"(invariant|decreases|ghost)-", name) or "use" in words:
                continue
            new = spelled(name, name[0].isupper())
            if new != name:
                names.setdefault(name, (new, set()))[1].add(f)
    return names


def turn(line, names):
    new = TOKEN.sub(lambda m: names.get(m.group(0), m.group(0)), line)
    return once(new) if new != line else line


def once(line):
    """An import line names each thing once."""
    m = re.match(r"((?:ghost )?use [^{]*\{)(.*)(\};?)$", line)
    return m.group(1) + ", ".join(dict.fromkeys(m.group(2).split(", "))) + m.group(3) if m else line


def local_names(f, text, names):
    """Of a file of definitions or lemmas: names with a dash that it neither imports nor shares, so its variables."""
    if os.path.basename(f) in MADE:
        return {}
    lines = [l for l in text.split("\n") if not l.lstrip().startswith("--")]
    imported = {m.group(0) for l in lines if l.startswith("use ") for m in TOKEN.finditer(l)}
    found = {m.group(0) for l in lines if not l.startswith("use ") for m in TOKEN.finditer(l)}
    return {n: spelled(n, n[0].isupper()) for n in found - imported - names.keys() if "-" in n}


def turn_antt(text, names):
    return "\n".join(l if l.lstrip().startswith("--") else turn(l, names) for l in text.split("\n"))


def turn_rt(text, names):
    """Ghost text alone: from `ghost`, `requires`, `ensures` to the end of the line's clause."""
    out, depth, ghost = [], 0, False
    for line in text.split("\n"):
        s = line.lstrip()
        if not ghost and not s.startswith("//") and re.match(r"(pub\s+)?(ghost\b|requires\b|ensures\b)", s):
            ghost, depth = True, 0
        if ghost:
            line = turn(line, names)
            depth += line.count("{") - line.count("}")
            ghost = depth > 0
        out.append(line)
    return "\n".join(out)


def main():
    found = own_names()
    names = {n: v[0] for n, v in found.items()}
    if "--list" in sys.argv:
        for n, (new, where) in sorted(found.items()):
            print(n, new, *sorted(where))
        return
    for f in files("crates/*/specs/**/*.antt", "crates/*/proofs/**/*.antt", "crates/*/src/**/*.rt"):
        with open(f) as g:
            old = g.read()
        words = names if "/proofs/" in f else names | TESTS
        new = turn_rt(old, words) if f.endswith(".rt") else turn_antt(old, words | local_names(f, old, names))
        if new != old:
            with open(f, "w") as g:
                g.write(new)


if __name__ == "__main__":
    main()
