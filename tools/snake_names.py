#!/usr/bin/env python3
"""Spells the repository's own definitions and lemmas in snake case: recordAt becomes record_at, numAt-put becomes num_at-put.

usage: tools/snake_names.py [--check]        in the repository: rewrites crates/ and the pages; --check only tells what would change

A name is taken part by part, as '-' cuts it: each part that begins small and has a capital is spelled anew, if some file of specs/ or
proofs/ declares it. Types and modules keep their capitals, and so does all that the source declares: functions, fields, variants, constants.
A line 'meets:' tells of a file in which the new spelling stood before; a line 'source:' of one that an item of the source has.
"""

import os
import re
import sys

WORD = re.compile(r"[A-Za-z_][A-Za-z0-9_]*")
CAMEL = re.compile(r"[a-z][a-z0-9]*(?:[A-Z][a-z0-9]*)+")
RAISED = re.compile(r"(?<=[a-z0-9])(?=[A-Z])|(?<=[A-Z])(?=[A-Z][a-z])")
DECLARED = re.compile(r"^ *(?:(?:abbrev|unfoldable|opaque|pub|infix\w*|\d+)\s+)*((?:[^\s:{}()\[\]]+ )*[^\s:{}()\[\]]+)(?: \{[^{}\n]*\})* :(?= )|^infix\w* \d+ (\S+)", re.M)
ITEM = re.compile(r"\b(?:fn|const|static|struct|enum|trait|mod|type) (\w+)|\b(\w+): ")
# Words of C and of Python that a page shows, and no definition.
PAGES = (".md",)
# Two lemmas that port.py spelled as two definitions are spelled here: they keep the dash that they had.
BEFORE = {"entry_place": "entry-place", "ruled_out": "ruled-out"}


def texts(root, endings):
    for folder, dirs, files in os.walk(root):
        dirs[:] = sorted(d for d in dirs if d not in ("out", ".git", "target"))
        for name in sorted(files):
            if name.endswith(endings):
                yield os.path.join(folder, name)


def read(path):
    with open(path, encoding="utf-8") as f:
        return f.read()


def in_snake_case(word):
    return RAISED.sub("_", word).lower()


def declared(root):
    """The camel-case words of the names that specs/ and proofs/ declare."""
    words = set()
    for path in texts(root, (".antt",)):
        for match in DECLARED.finditer(read(path)):
            for name in (match.group(1) or match.group(2)).split():
                words.update(w for w in WORD.findall(name) if CAMEL.fullmatch(w))
    return words


def main():
    table = {w: in_snake_case(w) for w in declared("crates")}
    items = {a or b for path in texts("crates", (".rt",)) for a, b in ITEM.findall(read(path))}
    for word in sorted(table):
        if table[word] in items:
            print(f"source: {word} -> {table[word]}")
    changed = 0
    paths = list(texts("crates", (".antt", ".rt"))) + list(texts("docs", PAGES)) + ["README.md"]
    for path in paths:
        text = read(path)
        words = set(WORD.findall(text))
        for word in sorted(words & set(table)):
            if table[word] in words:
                print(f"meets: {path}: {word} -> {table[word]}")
        new = WORD.sub(lambda m: (BEFORE if path.endswith(".antt") else {}).get(m.group()) or table.get(m.group(), m.group()), text)
        if new != text:
            changed += 1
            if "--check" not in sys.argv:
                with open(path, "w", encoding="utf-8") as f:
                    f.write(new)
    left = set()
    for path in texts("crates", (".antt",)):
        left.update(w for w in WORD.findall(read(path)) if CAMEL.fullmatch(w) and w not in table)
    print(f"words: {len(table)}; files changed: {changed}; camel case left, declared nowhere: {' '.join(sorted(left))}")


main()
