#!/usr/bin/env python3
"""wrap.py ROOT OLDROOT: lines of comments, prose of pages and equations of specs that a rename made longer than 120 characters go on in
the next line. Changes white space alone, in files below ROOT; OLDROOT is the tree before the renames (lines that were too long stay)."""
import os, re, sys, subprocess
new, old = sys.argv[1], sys.argv[2]
MOST = 120
fs = subprocess.run(['git', 'ls-files'], cwd=new, capture_output=True, text=True).stdout.split()
long_before = set()
changed = 0
def cascade(lines, i, prefix, goes_on):
    """moves the words past the margin of line i to the next line of its paragraph"""
    while i < len(lines) and len(lines[i]) > MOST:
        cut = lines[i].rfind(' ', 0, MOST + 1)
        if cut <= len(prefix): return
        # do not break inside backticks
        while lines[i][:cut].count('`') % 2 and cut > len(prefix): cut = lines[i].rfind(' ', 0, cut)
        if cut <= len(prefix): return
        rest = lines[i][cut + 1:]
        lines[i] = lines[i][:cut]
        if i + 1 < len(lines) and goes_on(lines[i + 1]): lines[i + 1] = prefix + rest + ' ' + lines[i + 1][len(prefix):]
        else: lines.insert(i + 1, prefix + rest)
        i += 1
for f in fs:
    if not f.endswith(('.antt', '.rt', '.md')) or f.startswith('docs/landings'): continue
    p = os.path.join(new, f)
    if not os.path.exists(p): continue
    s = open(p, encoding='utf-8').read()
    o = os.path.join(old, f)
    before = open(o, encoding='utf-8').read().split('\n') if os.path.exists(o) else []
    was = {i for i, l in enumerate(before) if len(l) > MOST}
    lines = s.split('\n')
    if not any(len(l) > MOST for l in lines): continue
    todo = [i for i, l in enumerate(lines) if len(l) > MOST and i not in was]
    for i in reversed(todo):
        l = lines[i]
        m = re.match(r'(\s*(?:--|//) )', l)
        if m and f.endswith(('.antt', '.rt')):
            prefix = m[1]
            if re.match(r'\s*-- ----', l): continue
            cascade(lines, i, prefix, lambda x: x.startswith(prefix) and x[len(prefix):len(prefix) + 1] not in (' ', '-', ''))
        elif f.endswith('.md') and not l.startswith(('|', '    ', '#')):
            indent = '  ' if re.match(r'(- |  \S)', l) else ''
            def on(x, indent=indent):
                return bool(x.strip()) and not re.match(r'\s*([-|#*]|\d+\.)\s?', x) and x.startswith(indent) and x[len(indent):len(indent) + 1] != ' '
            if l.startswith('- '):
                cut = l.rfind(' ', 0, MOST + 1)
                while l[:cut].count('`') % 2: cut = l.rfind(' ', 0, cut)
                rest = l[cut + 1:]; lines[i] = l[:cut]
                if i + 1 < len(lines) and on(lines[i + 1]): lines[i + 1] = '  ' + rest + ' ' + lines[i + 1][2:]
                else: lines.insert(i + 1, '  ' + rest)
                cascade(lines, i + 1, '  ', on)
            else: cascade(lines, i, indent, on)
        elif '/specs/' in f and f.endswith('.antt') and re.match(r'[^\s-]', l) and not re.match(r'use |pub mod|abbrev |unfoldable |pub ', l):
            m = re.match(r'(.*? =) (?!$)(.*)$', l)
            if m and len(m[1]) <= MOST and not re.search(r'[({]', m[1].split(' =')[0]) or m and m[1].count('(') == m[1].count(')') and m[1].count('{') == m[1].count('}'):
                lines[i:i + 1] = [m[1], '    ' + m[2]]
        elif '/specs/' in f and f.endswith('.antt') and re.match(r'\s+pub \S+ *:', l):
            cut = l.rfind(' → ', 0, MOST - 1)
            if cut > 20:
                depth = 0
                while cut > 20 and (l[:cut].count('(') != l[:cut].count(')')): cut = l.rfind(' → ', 0, cut)
                if cut > 20:
                    ind = re.match(r'\s+', l)[0]
                    lines[i:i + 1] = [l[:cut], ind + '    ' + l[cut + 1:]]
    r = '\n'.join(lines)
    if r != s:
        assert re.sub(r'\s+(--|//)? ?|\s+', '', r).replace('--', '').replace('//', '') == re.sub(r'\s+(--|//)? ?|\s+', '', s).replace('--', '').replace('//', ''), f
        open(p, 'w', encoding='utf-8').write(r); changed += 1
print('%d files' % changed)
