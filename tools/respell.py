#!/usr/bin/env python3
"""Spells the repository's own definitions and lemmas in snake case, by respell.tsv beside this file.

usage: tools/respell.py [--text] [FOLDER]

A row of the table has the old name, a tab and the new one, and perhaps a tab and the one file that it is for. In a file of specs/ or proofs/ whole words turn; in a file
of src/ only `ghost use` items and clauses; in a page (.md) only what stands between backquotes; in an edit that must be refused the lines of old and new text.
With --text the pages and edits turn, without it the crates' .rt and .antt files. Functions of src/, strings and data stay.
"""

import os
import re
import sys

WORD = re.compile(r'[^\s(){}.;,@"«»`:=|\[\]/]+')
DEEP = re.compile(r'[^\s(){}.;,@"«»]+')
CLAUSE = re.compile(r"\b(?:requires|ensures|invariant|ghost)\b\*?\s*(?:\w+\s*)?(?::\s*)?\{")
GHOST_USE = re.compile(r"\bghost use\b[^;]*;")


def rows(path):
    general, special = {}, {}
    with open(path, encoding="utf-8") as f:
        for line in f:
            part = line.rstrip("\n").split("\t")
            if len(part) == 3:
                special.setdefault(part[2], {})[part[0]] = part[1]
            elif len(part) == 2:
                general[part[0]] = part[1]
    return general, special


def turned(text, table, word=DEEP, steps=False):
    """The words of a text turned; with steps, a word that has a dash and stands behind a dot is one that a proof's step has, and stays."""

    def new(m):
        if steps and "-" in m[0] and text[m.start() - 1 : m.start()] == ".":
            return m[0]
        return table.get(m[0], m[0])

    return word.sub(new, text)


def antt(text, table, steps=False):
    out = []
    for line in text.split("\n"):
        code, mark, comment = line.partition("--")
        if mark and (code == "" or code.endswith(" ")):
            camel = {a: b for a, b in table.items() if "-" not in a}
            comment = turned(comment, camel, WORD)
            comment = re.sub(r"`[^`]*`", lambda m: turned(m[0], table, WORD), comment)
            out.append(turned(code, table, steps=steps) + mark + comment)
        else:
            out.append(turned(line, table, steps=steps))
    return "\n".join(out)


def closing(text, at):
    depth = 0
    for i in range(at, len(text)):
        depth += {"{": 1, "}": -1}.get(text[i], 0)
        if depth == 0:
            return i + 1
    return len(text)


def rt(text, table):
    camel = {a: b for a, b in table.items() if "-" not in a}
    spans = [m.span() for m in GHOST_USE.finditer(text)]
    for m in CLAUSE.finditer(text):
        line = text.rfind("\n", 0, m.start()) + 1
        if "//" not in text[line : m.start()]:
            spans.append((m.start(), closing(text, m.end() - 1)))
    out, at = [], 0
    for a, b in sorted(spans):
        if a < at:
            continue
        out.append(re.sub(r"//[^\n]*", lambda m: turned(m[0], camel, WORD), text[at:a]))
        out.append(turned(text[a:b], table))
        at = b
    out.append(re.sub(r"//[^\n]*", lambda m: turned(m[0], camel, WORD), text[at:]))
    return "".join(out)


def page(text, table):
    return re.sub(r"`[^`\n]*`", lambda m: turned(m[0], table, WORD), text)


def edit(text, table):
    return "\n".join(turned(l, table) if re.match(r"(old|new):", l) else l for l in text.split("\n"))


def main(argv):
    pages = "--text" in argv
    argv = [a for a in argv if a != "--text"]
    root = argv[0] if argv else "."
    general, special = rows(os.path.join(os.path.dirname(os.path.realpath(__file__)), "respell.tsv"))
    for folder, dirs, files in os.walk(root):
        dirs[:] = sorted(d for d in dirs if d not in (".git", "out", "target", "tools"))
        for name in sorted(files):
            path = os.path.join(folder, name)
            inside = os.path.relpath(path, root)
            crate = inside.startswith("crates" + os.sep)
            how = None
            if not pages and crate and name.endswith(".antt"):
                how = antt
            elif not pages and crate and name.endswith(".rt"):
                how = rt
            elif pages and name.endswith(".md") and name != "PORT.md":
                how = page
            elif pages and (name.endswith(".edit") or inside.startswith(os.path.join(".ci", "mutants.d"))):
                how = edit
            if how is None:
                continue
            with open(path, encoding="utf-8") as f:
                text = f.read()
            table = {**general, **special.get(inside, {})}
            new = antt(text, table, True) if name == "Proof.antt" else how(text, table)
            if new != text:
                with open(path, "w", encoding="utf-8") as f:
                    f.write(new)


if __name__ == "__main__":
    main(sys.argv[1:])
