#!/usr/bin/env python3
"""Shows that tree B is tree A with other names and nothing else: skeleton.py A B [--table FILE]

Every file of A (all but .git and target) must be in B, under the same path or with a function's folder renamed. Both are cut into identifiers and
what is between them. What is between must be the same byte for byte, and so must each identifier, or (old, new) is a pair of the table;
of a function, also the names that the checker makes of it (`.is-there2`, `Need-part-search-end`, `choose-spec`). Prints each other
difference and exits 1; else prints how many files and identifiers differ, and each pair with its count (--pairs). docs/promises.tsv is
derived and is not compared (tests/promises does that).
"""
import os, re, sys, collections
sys.path.insert(0, os.path.dirname(os.path.abspath(__file__)))
from rename import Table, kebab

TOKEN = re.compile(r"[^\W\d][\w'′·₀-₉]*(?:-[\w'′·₀-₉]+)*", re.U)
DERIVED = {'docs/promises.tsv'}

def files(root):
    for base, dirs, names in os.walk(root):
        dirs[:] = [d for d in dirs if d not in ('.git', 'target')]
        for n in names: yield os.path.relpath(os.path.join(base, n), root)

def main():
    args = sys.argv[1:]
    path = os.path.join(os.path.dirname(os.path.abspath(__file__)), 'table.txt')
    if '--table' in args: path = args[args.index('--table') + 1]; args.remove('--table'); args.remove(path)
    pairs_wanted = '--pairs' in args
    a, b = [x for x in args if not x.startswith('--')]
    t = Table(path)
    pairs = set(t.D.items()) | set(t.T.items()) | {(f[2], f[3]) for f in t.F}
    fns = [(kebab(f[2]), kebab(f[3])) for f in t.F]
    def allowed(x, y):
        if (x, y) in pairs: return True
        for o, n in fns:
            f = re.fullmatch(r'((?:Need|After|In)-(?:[a-z]+-)*)?' + re.escape(o) + r'(\d*(?:-(?:requires|end|start|length|result|spec))?(?:-\d+)?)', x)
            if f and y == (f[1] or '') + n + f[2]: return True
            if x == 'fits2' and y == 'value-fits-row': return True
        # a path of hyphens that holds one name: split and compare
        return False
    moves = {}
    for k, m, o, n in t.F:
        base = 'crates/%s/proofs/%s' % (k, m + '/' if m else '')
        moves[base + o + '/'] = base + n + '/'
    bad, differing, count = 0, 0, collections.Counter()
    fa, fb = set(files(a)), set(files(b))
    used = set()
    for rel in sorted(fa):
        to = rel
        if rel not in fb:
            for o, n in moves.items():
                if rel.startswith(o): to = n + rel[len(o):]; break
        if to not in fb: print('missing:', rel); bad += 1; continue
        used.add(to)
        x, y = open(os.path.join(a, rel), 'rb').read(), open(os.path.join(b, to), 'rb').read()
        if x == y or rel in DERIVED: continue
        x, y = x.decode(), y.decode()
        tx, ty = list(TOKEN.finditer(x)), list(TOKEN.finditer(y))
        px = py = 0; ok = len(tx) == len(ty)
        if not ok: print('%s: %d identifiers, then %d' % (rel, len(tx), len(ty)))
        else:
            for m, n in zip(tx, ty):
                if x[px:m.start()] != y[py:n.start()] or (m[0] != n[0] and not allowed(m[0], n[0])):
                    print('%s:%d: %r became %r' % (rel, x.count('\n', 0, m.start()) + 1, x[px:m.end()][-60:], y[py:n.end()][-60:])); ok = False; break
                if m[0] != n[0]: count[m[0], n[0]] += 1
                px, py = m.end(), n.end()
            if ok and x[px:] != y[py:]: print('%s: the end differs' % rel); ok = False
        if not ok: bad += 1
        else: differing += 1
    for rel in sorted(fb - used): print('new:', rel); bad += 1
    if pairs_wanted:
        for (o, n), c in sorted(count.items()): print('%5d  %s -> %s' % (c, o, n))
    print('%d files, %d with other names at %d places, %d with another difference' % (len(fa), differing, sum(count.values()), bad))
    sys.exit(1 if bad else 0)

main()
