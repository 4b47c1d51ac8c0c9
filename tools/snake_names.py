#!/usr/bin/env python3
"""Brings the repository's own definitions, lemmas and record fields to snake case, in every .rt, .antt and .edit file.

usage: python3 tools/snake_names.py [--list]      at the top of the repository, once, behind /opt/rattle/port/port.py

A name is turned where a file of specs/ or proofs/ declares it with a dash: `count-words` becomes `count_words`. So are, in
proofs/, the labels of clauses and ghost fields of src/, which a proof spelled with a dash. Names that Rattle makes (steps,
goals, invariants, measures) and names of the library are left. It stops where two of these would fall together; --list also
marks one that falls together with any other name of specs/ or proofs/, and comments are turned as the rest is.
"""
import collections
import pathlib
import re
import sys

NAME = r"[A-Za-z][A-Za-z0-9_]*(?:-[A-Za-z0-9_]+)+'*"
# a function of src/ has the name in snake case already, or the name holds one that the library spells otherwise now
OTHERWISE = {
    "cells-are-there": "all_cells_there",
    "payloads-fit": "all_payloads_fit",
    "getD-cond": "get_or_cond",
    "getD-joined": "get_or_joined",
}
# a declaration: a signature, a record, a field, a constructor, a ruleset, a typed `let`
DECLARED = re.compile(r"^ *(?:(?:abbrev|unfoldable|pub|ruleset|mutual) )*(" + NAME + r") *(?:\{[^}]*\} *|\([^)]*\) *)*(?::|=)", re.M)
LABEL = re.compile(r"\b(?:requires|ensures)\*? ([a-z][a-z0-9_]*) \{|\bghost ([a-z][a-z0-9_]*)(?::| =)")
# what Rattle makes of the code
MADE = re.compile(r"^(?:returns|loop|invariant|decreases|overflow|nonzero|bounds|slice_bounds|prove|ghost|ghosts|invariant_of|the|if|in|type)-|-(?:requires|preserved|init|smaller|clause|item|index)(?:-|$)|-\d+$")


def files(root, ends):
    for p in sorted(root.glob("crates/*/*/**/*")):
        if p.is_file() and p.suffix in ends and "/out/" not in str(p):
            yield p


def whole(name):
    return re.compile(r"(?<![A-Za-z0-9_'·\-])" + re.escape(name) + r"(?![A-Za-z0-9_'\-])")


def main():
    root = pathlib.Path(".")
    own, labels, names = collections.defaultdict(set), set(), set()
    for p in files(root, {".antt"}):
        text = p.read_text()
        names |= set(re.findall(r"[A-Za-z][A-Za-z0-9_']*", text))
        for m in DECLARED.finditer(text):
            if not MADE.search(m[1]):
                own[m[1]].add(str(p))
    for p in files(root, {".rt"}):
        for m in LABEL.finditer(p.read_text()):
            labels.add(m[1] or m[2])
    turned = {n: OTHERWISE.get(n, n.replace("-", "_")) for n in own}
    for label in labels:
        if "_" in label:
            turned.setdefault(label.replace("_", "-"), label)
    snake = collections.defaultdict(list)
    for old, new in turned.items():
        snake[new].append(old)
    both = {new: olds for new, olds in snake.items() if len(olds) > 1 or (new in names and olds[0] in own)}
    if "--list" in sys.argv:
        for old in sorted(turned):
            print(old, turned[old], "label" if old not in own else "", "TOGETHER" if turned[old] in both else "")
        return 0
    if any(len(olds) > 1 for olds in both.values()):
        print("names fall together:", both, file=sys.stderr)
        return 1
    patterns = [(whole(old), new) for old, new in sorted(turned.items(), key=lambda it: -len(it[0]))]
    changed = 0
    for p in files(root, {".antt", ".rt", ".edit"}):
        before = text = p.read_text()
        for pattern, new in patterns:
            text = pattern.sub(new, text)
        if text != before:
            p.write_text(text)
            changed += 1
    print(f"{len(turned)} names, {changed} files")
    return 0


if __name__ == "__main__":
    sys.exit(main())
