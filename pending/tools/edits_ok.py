#!/usr/bin/env python3
"""edits_ok.py ROOT: every must-fail edit's old text is in its file."""
import glob, re, os, sys
root = sys.argv[1]; bad = 0; n = 0
for f in sorted(glob.glob(root + '/crates/*/must-fail/*.edit')):
    s = open(f, encoding='utf-8').read()
    crate = f.split('/must-fail/')[0]
    file = None; old = None; mode = None; pairs = []
    for line in s.split('\n'):
        if line.startswith('#'): continue
        m = re.match(r'file:\s*(\S+)', line)
        if m: file = m[1]; continue
        m = re.match(r'(old|new):(?: (.*)|$)', line)
        if m:
            mode = m[1]
            if mode == 'old': pairs.append([file, m[2] or '']); 
            continue
        if mode == 'old' and line: pairs[-1][1] += '\n' + line
    for file, old in pairs:
        n += 1
        t = open(os.path.join(crate, file), encoding='utf-8').read()
        for o in old.split('\n'):
            if o.strip() not in t: print(f, repr(o)); bad += 1
print(n, 'old texts,', bad, 'not found')
