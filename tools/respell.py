#!/usr/bin/env python3
"""Spells this repository's own definitions, lemmas and fields of records as respell.tsv beside this file says: words in snake case,
and a dash only between two names. Run once at the top of the checkout, after the port's own scripts.

Turned are the names in specs/ and proofs/, and in the clauses and `ghost use` lines of src/. Functions, exported names, strings and
comments of src/ stay. A name that Rattle makes, as a step or a goal, stands behind a dot and stays, but for a field of a record of ours.
`respell.py FILE..` turns only those files, whatever they are: edits and pages too.
"""
import os
import re
import sys

HERE = os.path.dirname(os.path.realpath(__file__))
WORD = re.compile(r"[^\s(){}\[\].;:,@\"«»`&*!?<>|=]+")
FIELDS = "field"


def table():
    rows, fields = {}, set()
    with open(os.path.join(HERE, "respell.tsv"), encoding="utf-8") as f:
        for line in f:
            old, new, kind = line.rstrip("\n").split("\t")
            rows[old] = new
            if kind == FIELDS:
                fields.add(old)
    return rows, fields


def turned(text, rows, fields):
    out, at = [], 0
    for m in WORD.finditer(text):
        old = m[0]
        if old not in rows:
            continue
        if m.start() and text[m.start() - 1] == ".":
            path = re.search(r"[^\s(){}\[\];,]*\.$", text[: m.start()])[0]
            of_module = path.startswith("Rattle.") or path[:1].isupper()
            if old not in fields and not of_module and path != ".":
                continue
        out += [text[at : m.start()], rows[old]]
        at = m.end()
    return "".join(out) + text[at:]


def rust(text, rows, fields):
    """The clauses and ghost lines of a source file, and nothing else of it."""
    lines, inside = [], False
    for line in text.split("\n"):
        head = line.lstrip()
        if head.startswith(("ghost ", "requires", "ensures")):
            inside = True
        elif inside and (not head or head.startswith(("{", "fn ", "pub ", "//", "}"))):
            inside = False
        lines.append(turned(line, rows, fields) if inside else line)
        if inside and head.startswith("ghost use") and line.rstrip().endswith(";"):
            inside = False
    return "\n".join(lines)


def main(files):
    rows, fields = table()
    if not files:
        for folder, dirs, names in os.walk("crates"):
            dirs[:] = sorted(d for d in dirs if d != "out")
            files += [os.path.join(folder, n) for n in sorted(names) if n.endswith((".antt", ".rt"))]
    for path in files:
        with open(path, encoding="utf-8") as f:
            text = f.read()
        new = rust(text, rows, fields) if path.endswith(".rt") else turned(text, rows, fields)
        if new != text:
            with open(path, "w", encoding="utf-8") as f:
                f.write(new)


if __name__ == "__main__":
    main(sys.argv[1:])
