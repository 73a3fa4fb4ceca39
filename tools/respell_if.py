#!/usr/bin/env python3
"""Gives the specifications' choice of two by a test a name of its own: `when t then a else b`.

usage: tools/respell_if.py CRATE ..        at the top of the checkout; rewrites the crates' .antt, .rt and .edit files in place

The kit's library has an operator `if◌then◌else◌` of its own, and its gate refuses another one under that name. What the
operator stands for, the function `if` of basics, keeps its name.
"""
import os
import re
import sys

IF = re.compile(r"(?<![\w'◌\-.])if(?![\w'◌\-]|\))")
TOKEN = re.compile(r"[(\[{]|[)\]}]|(?<![\w'◌\-.])then(?![\w'◌\-])")


def has_then(rest):
    """Whether a `then` follows before the brackets that are open there end."""
    depth = 0
    for m in TOKEN.finditer(rest):
        word = m.group(0)
        depth += (word in "([{") - (word in ")]}")
        if depth < 0:
            return False
        if word == "then" and depth == 0:
            return True
    return False


def turned(code):
    """The operator's `if` is one that a `then` follows; `if` alone is the function."""
    code = code.replace("if◌then◌else◌", "when◌then◌else◌")
    out, at = [], 0
    for m in IF.finditer(code):
        line = code[code.rfind("\n", 0, m.start()) + 1:m.start()]
        rest = code[m.end():]
        stop = re.search(r"\n(?=\S)", rest)
        rest = rest[:stop.start()] if stop else rest
        if re.match(r"(unfolding|use|pub use)\b", line) or not line.strip() and re.match(r"\s*(:|true|false)", rest):
            continue
        if has_then(rest):
            out += [code[at:m.start()], "when"]
            at = m.end()
    return "".join(out + [code[at:]])


def text_of(text, mark):
    """Comments stay as they are."""
    held = []

    def hide(m):
        held.append(m.group(0))
        return f"\x00{len(held) - 1}\x00"

    hidden = re.sub(r"%s[^\n]*" % mark, hide, text)
    return re.sub("\x00(\\d+)\x00", lambda m: held[int(m.group(1))], turned(hidden))


def main():
    for crate in sys.argv[1:]:
        for folder, dirs, files in os.walk(os.path.join("crates", crate)):
            dirs[:] = [d for d in dirs if d != "out"]
            for name in files:
                if not name.endswith((".antt", ".rt", ".edit")):
                    continue
                path = os.path.join(folder, name)
                with open(path, encoding="utf-8") as f:
                    old = f.read()
                if name.endswith(".antt"):
                    new = text_of(old, "--")
                elif name.endswith(".rt"):
                    new = old.replace("if◌then◌else◌", "when◌then◌else◌")
                elif re.search(r"^file: .*\.antt$", old, re.M):
                    new = re.sub(r"(?m)^(old|new): .*$", lambda m: IF.sub("when", m.group(0)), old)
                else:
                    new = old
                if new != old:
                    with open(path, "w", encoding="utf-8") as f:
                        f.write(new)


if __name__ == "__main__":
    sys.exit(main())
