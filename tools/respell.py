#!/usr/bin/env python3
"""Brings the names of the definitions and lemmas to the library's spelling, by tools/respell.tsv.

usage: tools/respell.py            in the repository, once, after the kit's own port script: rewrites crates/
       tools/respell.py FILE..     the same table in these files, in code spans and blocks where they are pages

In .antt files whole words turn; in .rt files those of `ghost use` items, clauses and ghost blocks; in must-fail edits
those of the lines about .antt files, and of `false:`. Code of Rust keeps its names. Modules that Rattle now names
itself, `Contracts`, become `Promised`. The choice by a decision, `if x ≟ y then a else b`, is `if? x ≟ y then a else b`:
the library's own `if` chooses by a test.
"""

import os
import re
import sys

HERE = os.path.dirname(os.path.abspath(__file__))
WORD = re.compile(r"[^\s(){}.;,@\"«»`\[\]|]+")
LINE_COMMENT = re.compile(r"(?m)(?<![^\s(){}.;,])--.*$")
GHOST_USE = re.compile(r"ghost use\b[^;]*;")
CLAUSE = re.compile(r"\b(?:requires|ensures)\*?(?: +\w+)? *\{|\bghost +(?:\w+ *:|\w+ *=|invariant) *\{")


def tables():
    everywhere, there = {}, []
    with open(os.path.join(HERE, "respell.tsv"), encoding="utf-8") as f:
        for line in f:
            row = line.rstrip("\n").split("\t")
            if line.startswith("#"):
                continue
            if len(row) == 3:
                there.append(tuple(row))
            else:
                everywhere[row[0]] = row[1]
    return everywhere, there


EVERYWHERE, THERE = tables()


def table_of(path):
    table = dict(EVERYWHERE)
    for prefix, old, new in THERE:
        if path.startswith(prefix):
            table[old] = new
    return table


def words(text, table):
    return WORD.sub(lambda m: table.get(m[0], m[0]), text)


def decided(text):
    return re.sub(r"(?<![^\s({;,])if(?=◌then◌else◌|\s)", "if?", text)


def antt(text, table):
    text = words(text, table)
    # The files that choose by a decision; comments keep their words.
    if re.search(r"(?<![^\s{,])if◌then◌else◌", text) and "Bool.{if" not in text:
        text = "\n".join(line if line.lstrip().startswith("--") else decided(line) for line in text.split("\n"))
    return text


def braces(text, at):
    """The place behind the bracket that closes the one at `at`."""
    depth = 0
    for i in range(at, len(text)):
        depth += {"{": 1, "}": -1}.get(text[i], 0)
        if depth == 0:
            return i + 1
    return len(text)


def rt(text, table):
    text = GHOST_USE.sub(lambda m: words(m[0], table), text)
    out, at = [], 0
    for m in CLAUSE.finditer(text):
        if m.start() < at:
            continue
        end = braces(text, m.end() - 1)
        out += [text[at : m.end()], words(text[m.end() : end], table)]
        at = end
    text = "".join(out) + text[at:]
    text = re.sub(r"\b((?:requires|ensures)\*? +)(\w+)(?= \{)", lambda m: m[1] + table.get(m[2], m[2]), text)
    return re.sub(r"(?m)^(\s*//.*)$", lambda m: re.sub(r"`[^`\n]*`", lambda s: words(s[0], table), m[1]), text)


def edit(text, table):
    out, of_antt = [], False
    for line in text.split("\n"):
        if line.startswith("file:"):
            of_antt = line.rstrip().endswith(".antt")
        if line.startswith("false:") or (of_antt and line.startswith(("old:", "new:"))):
            head, rest = line.split(":", 1)
            line = head + ":" + (decided(words(rest, table)) if head != "false" else words(rest, table))
        out.append(line)
    return "\n".join(out)


def page(text, table):
    text = re.sub(r"(?ms)^```.*?^```", lambda m: words(m[0], table), text)
    return re.sub(r"`[^`\n]+`", lambda m: words(m[0], table), text)


def turn(path):
    with open(path, encoding="utf-8") as f:
        old = f.read()
    table = table_of(os.path.relpath(path))
    kind = {".antt": antt, ".rt": rt, ".edit": edit, ".md": page}.get(os.path.splitext(path)[1])
    new = kind(old, table) if kind else old
    if kind in (antt, rt):
        new = re.sub(r"(Rattle\.(?:call_snapshot|table_shape)\.specs\.)Contracts\b", r"\1Promised", new)
        if re.search(r"crates/(call_snapshot|table_shape)/specs/Lib\.antt$", path):
            new = re.sub(r"\bContracts\b", "Promised", new)
    if new != old:
        with open(path, "w", encoding="utf-8") as f:
            f.write(new)
        return 1
    return 0


def main(argv):
    if argv:
        print(sum(turn(p) for p in argv), "files")
        return
    n = 0
    for folder, dirs, files in os.walk("crates"):
        dirs[:] = [d for d in dirs if d != "out"]
        for f in sorted(files):
            if f.endswith((".antt", ".rt", ".edit")):
                n += turn(os.path.join(folder, f))
    for c in ("call_snapshot", "table_shape"):
        old = f"crates/{c}/specs/Contracts.antt"
        if os.path.exists(old):
            os.rename(old, f"crates/{c}/specs/Promised.antt")
    print(n, "files")


main(sys.argv[1:])
