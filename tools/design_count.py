#!/usr/bin/env python3
"""Counts the places of docs/DESIGN-PASS.md in crates/*/src.

usage: tools/design_count.py [--list POINT] [COMMIT]

Without COMMIT the files of the checkout are read. A row for each point; --list prints the places of one.
"""
import collections
import os
import re
import subprocess
import sys

ROOT = os.path.dirname(os.path.dirname(os.path.abspath(__file__)))


def files(commit):
    if commit:
        names = subprocess.check_output(
            ["git", "-C", ROOT, "ls-tree", "-r", "--name-only", commit, "crates"], text=True
        ).split()
        names = [n for n in names if re.fullmatch(r"crates/[a-z_0-9]+/src/.*\.rt", n)]
        return {
            n: subprocess.check_output(["git", "-C", ROOT, "show", f"{commit}:{n}"], text=True)
            for n in names
        }
    found = {}
    for crate in sorted(os.listdir(os.path.join(ROOT, "crates"))):
        for folder, _, names in os.walk(os.path.join(ROOT, "crates", crate, "src")):
            for name in sorted(names):
                if name.endswith(".rt"):
                    path = os.path.join(folder, name)
                    found[os.path.relpath(path, ROOT)] = open(path, encoding="utf-8").read()
    return found


def line_of(text, at):
    return text.count("\n", 0, at) + 1


def enums(text):
    for m in re.finditer(r"^(?:pub )?enum (\w+) \{\n(.*?)^\}", text, re.M | re.S):
        variants = [
            v.strip().rstrip(",")
            for v in m.group(2).split("\n")
            if v.strip() and not v.strip().startswith(("//", "#"))
        ]
        yield m, m.group(1), variants


def functions(text):
    """Name, signature with clauses, and body of each function."""
    for m in re.finditer(r"^( *)(?:pub(?:\(crate\))? )?(?:extern \"C\" )?fn (\w+)", text, re.M):
        start = m.start()
        body = re.search(r"^%s(?:\{|.*\{)$" % m.group(1), text[start:], re.M)
        if not body:
            continue
        end = re.search(r"^%s\}" % m.group(1), text[start + body.end() :], re.M)
        if not end:
            continue
        yield m.group(2), text[start : start + body.start()], text[
            start + body.end() : start + body.end() + end.start()
        ], start


# 1. An enum of the shape of Option or Result: two variants, at most one of which has no value; or one variant with the
# value of a success and others that say why there is none. A flag beside a value. Constants that number kinds.
SUCCESS = r"^(Written|Accepted|Played|Loaded|Calls|Decided|Admitted|Passed)\b"


def point_1(texts):
    for path, text in texts.items():
        for m, name, variants in enums(text):
            with_value = [v for v in variants if "(" in v]
            two = len(variants) == 2 and (with_value or re.match(SUCCESS, variants[0]))
            more = len(variants) > 2 and re.match(SUCCESS, variants[0])
            three = len(variants) == 3 and any(v in ("Broken", "Malformed", "NotAllowed", "Absent", "Nothing") for v in variants)
            wrong = any(re.match(r"Wrong\(", v) for v in variants)
            if two or more or three or wrong:
                yield path, line_of(text, m.start()), f"enum {name}"
        for name, head, body, at in functions(text):
            if re.search(r"\bthere: bool\b", head):
                yield path, line_of(text, at), f"fn {name}: a flag beside a value"
        groups = collections.OrderedDict()
        for m in re.finditer(r"^(?:pub )?const ([A-Z0-9]+)_([A-Z0-9_]+): (u8|u32|u64|usize) = ", text, re.M):
            groups.setdefault(m.group(1), []).append((m, m.group(2)))
        for prefix, members in groups.items():
            if len(members) > 2 and prefix in ("REFUSED", "REASON", "FORM", "CID", "ON", "KIND", "INS", "CVM", "IN"):
                yield path, line_of(text, members[0][0].start()), f"numbers {prefix}_*: {len(members)}"


# 2. Functions of at least four lines whose bodies are the same but for names and numbers.
def point_2(texts):
    groups = collections.OrderedDict()
    for path, text in texts.items():
        for name, head, body, at in functions(text):
            lines = [l for l in body.split("\n") if l.strip() and not l.strip().startswith("//")]
            if len(lines) < 4:
                continue
            bare = re.sub(r"//.*", "", body)
            bare = re.sub(r"\b(?!let|if|else|return|match|while|for|loop|in|mut|as|fn)[A-Za-z_]\w*", "x", bare)
            bare = re.sub(r"\b(0x)?[0-9A-Fa-f]+\b", "0", bare)
            bare = re.sub(r"x(::x|\.x)+", "x", re.sub(r"\s+", "", bare))
            groups.setdefault(bare, []).append((path, line_of(text, at), name))
    for members in groups.values():
        if len(members) > 1:
            yield members[0][0], members[0][1], "twins: " + ", ".join(
                f"{p.split('/')[1]}::{n}" for p, _, n in members
            )


# 3. A loop that counts by hand, or walks a slice by cutting its front off; a range over indices of one.
def point_3(texts):
    for path, text in texts.items():
        for m in re.finditer(r"^ *(?:while\b(?! let).*\{|loop \{)", text, re.M):
            yield path, line_of(text, m.start()), m.group(0).strip()
        for m in re.finditer(r"^ *for \w+ in \d+\.\.\w[\w.]*\.len\(\) \{|^ *for \w+ in 0\.\.[A-Z:a-z]*ROWS \{", text, re.M):
            yield path, line_of(text, m.start()), m.group(0).strip()


# 4. What std has: calls of the hand-written widening, comparing, copying and range test; big-endian numbers by
# multiplying or dividing; numbers of enums compared in place of the enums.
def point_4(texts):
    hand = r"\bbasics::(widen32|widen|bytes_equal|copy|is_between)\("
    for path, text in texts.items():
        for name, head, body, at in functions(text):
            calls = re.findall(hand, body)
            if calls:
                yield path, line_of(text, at), f"fn {name}: " + ", ".join(sorted(set(calls)))
            if re.search(r"\* (256|0x100|0x1000000|0x10000)\b.*\+|/ 0x100000000000000\b", body) and "as" in body + head:
                yield path, line_of(text, at), f"fn {name}: bytes of a number by hand"
            if re.search(r"_number\([a-z_]+\) == .*_number\(", body):
                yield path, line_of(text, at), f"fn {name}: enums compared by number"
            if path.startswith("crates/basics/") and name in ("widen", "widen32", "bytes_equal", "copy", "is_between", "byte_at"):
                yield path, line_of(text, at), f"fn {name}: std has it"


# 5. A clause of `requires` that stands in three or more functions; three parameters that stand together in three or more.
def point_5(texts):
    clauses = collections.OrderedDict()
    groups = collections.OrderedDict()
    for path, text in texts.items():
        crate = path.split("/")[1]
        for name, head, body, at in functions(text):
            for fact in re.findall(r"requires(?: \w+)? \{ (.*?) \}$", head, re.M):
                clauses.setdefault((crate, fact), []).append((path, line_of(text, at), name))
            m = re.search(r"\((.*?)\)(?: ->|\s*(?:requires|ensures|$))", head, re.S)
            if m and "extern" not in head:
                names = tuple(p.split(":")[0].strip() for p in m.group(1).split(",") if ":" in p)
                for i in range(len(names) - 2):
                    groups.setdefault((crate, names[i : i + 3]), []).append((path, line_of(text, at), name))
    for (crate, fact), members in clauses.items():
        if len(members) > 2:
            yield members[0][0], members[0][1], f"{len(members)} functions: {fact}"
    for (crate, names), members in groups.items():
        if len(members) > 2:
            yield members[0][0], members[0][1], f"{len(members)} functions: parameters {', '.join(names)}"


# 6. An array with a count beside it, parallel arrays, a sorted list searched by hand.
def point_6(texts):
    for path, text in texts.items():
        for name, head, body, at in functions(text):
            arrays = re.findall(r"let mut (\w+) = \[[^;\]]+; \w+\];", body)
            if arrays and re.search(r"let mut (n|k|count|depth|pending|size|done|used|at) = ", body):
                yield path, line_of(text, at), f"fn {name}: {', '.join(arrays)} with a count"
            sizes = collections.Counter(re.findall(r"let mut \w+ = \[[^;\]]+; (\w+)\];", body))
            if any(count > 1 for count in sizes.values()):
                yield path, line_of(text, at), f"fn {name}: arrays of one size {', '.join(arrays)}"
            if re.search(r"\(from \+ to\) / 2", body):
                yield path, line_of(text, at), f"fn {name}: a search by halving"
        for m in re.finditer(r"^(?:pub )?const (\w+): \[[^;]+; ROWS\] =", text, re.M):
            yield path, line_of(text, m.start()), f"const {m.group(1)}: one column of a table"
        for m in re.finditer(r"^(?:pub )?struct (\w+)[^{;]*\{\n(.*?)^\}", text, re.M | re.S):
            if re.search(r": \[u\d+; [A-Z_]+\],\n", m.group(2)) and re.search(r"\b(size|len|count|used)\w*: (usize|u8|u32)", m.group(2)):
                yield path, line_of(text, m.start()), f"struct {m.group(1)}: a buffer with a length"


# 7. A match or a chain of tests on which call of a kind to make, the same in three or more functions.
def point_7(texts):
    for path, text in texts.items():
        calls = collections.OrderedDict()
        for name, head, body, at in functions(text):
            m = re.search(r"= (\w+)\(.*\);\n\s*match \w+ \{\n\s*(?:\w+::)?(?:Refused|Err)\((\w+)\) => \2,", body)
            if m:
                calls.setdefault(m.group(1), []).append((line_of(text, at), name))
        for callee, members in calls.items():
            if len(members) > 2:
                yield path, members[0][0], f"{len(members)} functions do `{callee}`, then one step each: " + ", ".join(n for _, n in members)


POINTS = {1: point_1, 2: point_2, 3: point_3, 4: point_4, 5: point_5, 6: point_6, 7: point_7}


def main():
    arguments = sys.argv[1:]
    listed = None
    if arguments and arguments[0] == "--list":
        listed = int(arguments[1])
        arguments = arguments[2:]
    texts = files(arguments[0] if arguments else None)
    for number, point in POINTS.items():
        places = list(point(texts))
        if listed is None:
            print(f"{number}\t{len(places)}")
        elif listed == number:
            for path, line, what in places:
                print(f"{path}:{line}\t{what}")


main()
