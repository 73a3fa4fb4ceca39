#!/usr/bin/env python3
"""draw.py ROOT SEED [N]: draws N (40) names at random, each once, from all types and open functions of crates/*/src and all definitions of
crates/*/specs outside declared/. Prints of each its kind, name, signature, crate and file; no comment and no definition. The signature of
a type is its declaration; of a record or data type of the specs that has no parameter (a type of values) its declaration too; of a record
that has parameters (a statement) its parameters alone. The same tree and seed give the same names."""
import random, re, sys
sys.path.insert(0, __file__.rsplit('/', 1)[0] if '/' in __file__ else '.')
from names_lib import everything
root, seed = sys.argv[1], int(sys.argv[2])
n = int(sys.argv[3]) if len(sys.argv) > 3 else 40
rows = sorted({(k, name, sig, crate, f) for k, name, sig, crate, f, line, com, body in everything(root) if not (k == 'open function' and name == 'main')})
print('# %d names of %d, seed %d' % (n, len(rows), seed))
for i, (kind, name, sig, crate, f) in enumerate(random.Random(seed).sample(rows, n), 1):
    if kind == 'definition' and sig.startswith('record ') and re.match(r'record \S+ [({]', sig): sig = sig.split(' where')[0]
    print('\n%d. %s `%s`\n   %s\n   crate %s, %s' % (i, kind, name, re.sub(r'\bpub ', '', sig), crate, f))
