#!/usr/bin/env python3
"""Brings the project's own definitions and lemmas to one spelling: snake case for what is no type.

usage: tools/respell.py        at the top of the checkout; rewrites the files in place, once

The table tools/respell.tsv has a name and its new spelling on each line. In crates/ every .antt file, and every .rt and
.edit file outside its strings, is turned; of the pages, the programs in bin/ and tests/ and the table of promises, the
names that nothing else can be. A file of a function's proof (Proof.antt) keeps the names that the checker makes.
"""
import os
import re
import sys

LETTERS = r"A-Za-z0-9_'₀₁₂₃₄₅₆₇₈₉ℕℤ"
WORD = re.compile(r"(?<![%s\-])[A-Za-z_][%s\-]*" % (LETTERS, LETTERS))
PLAIN = re.compile(r"(?<![%s\-])[A-Za-z_][%s]*" % (LETTERS, LETTERS))
STRING = re.compile(r'"(?:[^"\\\n]|\\.)*"')


def table(top):
    rows = {}
    with open(os.path.join(top, "tools", "respell.tsv"), encoding="utf-8") as f:
        for line in f:
            old, new = line.rstrip("\n").split("\t")
            rows[old] = new
    return rows


def turned(text, rows, word):
    return word.sub(lambda m: rows.get(m.group(0), m.group(0)), text)


def walk_word(rows):
    """In a function's proof a name behind a dot is the checker's, which spells a callee as the source does."""
    def pick(m):
        name = m.group(0)
        if m.string[max(0, m.start() - 4):m.start()] == "tie.":
            return name
        if "-" in name and m.string[max(0, m.start() - 1):m.start()] == "." and rows.get(name, "").endswith("_lem"):
            return name.replace("-", "_")
        return rows.get(name, name)
    return pick


def of_antt(text, rows, walk):
    """Comments are prose: a name with a dash is turned there only between backquotes."""
    pick = walk_word(rows) if walk else (lambda m: rows.get(m.group(0), m.group(0)))
    out = []
    for line in text.split("\n"):
        code, mark, prose = line.partition("--")
        out.append(WORD.sub(pick, code) + mark + of_prose(prose, rows))
    return "\n".join(out)


def of_prose(text, rows):
    camel = PLAIN.sub(lambda m: rows.get(m.group(0), m.group(0)), text)
    return re.sub(r"`([^`\n]+)`", lambda m: "`" + turned(m.group(1), rows, WORD) + "`", camel)


def outside_strings(text, rows):
    out, at = [], 0
    for m in STRING.finditer(text):
        out += [turned(text[at:m.start()], rows, PLAIN), m.group(0)]
        at = m.end()
    return "".join(out + [turned(text[at:], rows, PLAIN)])


def main():
    top = os.getcwd()
    rows = table(top)
    camel = {k: v for k, v in rows.items() if "-" not in k}
    for folder, dirs, files in os.walk(top):
        dirs[:] = sorted(d for d in dirs if d not in ("out", "target", ".git", "pending", "landings", "tools"))
        inside = os.path.relpath(folder, top)
        for name in sorted(files):
            path = os.path.join(folder, name)
            if inside.startswith("crates") and name.endswith(".antt"):
                turn = lambda t, walk=name == "Proof.antt": of_antt(t, rows, walk)
            elif inside.startswith("crates") and name.endswith(".edit"):
                with open(path, encoding="utf-8") as f:
                    of_spec = re.search(r"^file: .*\.antt$", f.read(), re.M)
                turn = (lambda t: turned(t, rows, WORD)) if of_spec else (lambda t: outside_strings(t, camel))
            elif inside.startswith("crates") and name.endswith(".rt"):
                turn = lambda t: outside_strings(t, camel)
            elif name.endswith((".md", ".tsv")) or inside in ("bin", "tests", ".ci"):
                turn = lambda t: of_prose(t, rows)
            else:
                continue
            with open(path, encoding="utf-8") as f:
                old = f.read()
            new = turn(old)
            if new != old:
                with open(path, "w", encoding="utf-8") as f:
                    f.write(new)


if __name__ == "__main__":
    sys.exit(main())
