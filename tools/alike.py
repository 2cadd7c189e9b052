#!/usr/bin/env python3
"""Lists pairs of functions that are alike: nine of ten words of their bodies are the same once names, numbers and texts are made equal.

Usage: tools/alike.py [COMMIT]; without a commit the files as they stand are read. Bodies of fewer than twenty words are left out.
"""
import re
import subprocess
import sys
from difflib import SequenceMatcher
from itertools import combinations

WORDS = set("if else for while loop match let mut return in as ref move true false None Some Ok Err".split())


def files(commit):
    listed = ["git", "ls-tree", "-r", "--name-only", commit] if commit else ["git", "ls-files"]
    names = subprocess.run(listed, capture_output=True, text=True, check=True).stdout.split()
    for name in names:
        if re.fullmatch(r"crates/\w+/src/\w+\.rt", name):
            if commit:
                shown = subprocess.run(["git", "show", f"{commit}:{name}"], capture_output=True, text=True, check=True)
                yield name, shown.stdout
            else:
                yield name, open(name).read()


def bodies(text):
    """Each function's name and its body, without comments; a contract stands before the body's brace, on lines that begin with a clause's word."""
    text = re.sub(r"//[^\n]*", "", text)
    for start in re.finditer(r"\bfn (\w+)", text):
        lines = text[start.end():].split("\n")
        at = next((i for i, line in enumerate(lines) if re.fullmatch(r"\s*\{\}?", line) or (line.rstrip().endswith("{") and " requires " not in line)), None)
        if at is None:
            continue
        depth, taken = 0, []
        for line in lines[at:]:
            taken.append(line)
            depth += line.count("{") - line.count("}")
            if depth <= 0:
                break
        yield start.group(1), "\n".join(taken[1:] if lines[at].strip() == "{" else taken)


def shape(body):
    body = re.sub(r'b?"(\\.|[^"\\])*"', "0", body)
    words = re.findall(r"\w+|[^\w\s]", body)
    return tuple(w if w in WORDS or not re.match(r"\w", w) else ("0" if w[0].isdigit() else "a") for w in words if w != ",")


def main():
    found = []
    for name, text in files(sys.argv[1] if len(sys.argv) > 1 else None):
        for function, body in bodies(text):
            words = shape(body)
            if len(words) >= 20:
                found.append((f"{name.removeprefix('crates/').replace('/src', '')}:{function}", words))
    for (one, words), (other, others) in combinations(found, 2):
        alike = SequenceMatcher(None, words, others, False)
        if alike.real_quick_ratio() >= 0.9 and alike.quick_ratio() >= 0.9 and alike.ratio() >= 0.9:
            print(f"{one} {other}")


main()
