#!/usr/bin/env python3
"""wrap.py FILE..: breaks the lines over 120 characters of antt files at spaces, so that a continuation is indented
deeper than its declaration. Nothing but line breaks and indentation changes (checked: tokens are compared)."""
import re, sys

LIMIT = 120
DEEP = '--deep' in sys.argv
sys.argv = [a for a in sys.argv if a != '--deep']
OPEN, CLOSE = '([{', ')]}'

def tokens(text):
    return re.sub(r'\s+', ' ', text)

def depths(line):
    d, out = 0, []
    for ch in line:
        if ch in CLOSE: d -= 1
        out.append(d)
        if ch in OPEN: d += 1
    return out

def break_at(line, start, limit, anywhere=False):
    """The best space to break at, in (start, limit]; None where there is none."""
    d = depths(line)
    best, cost = None, None
    for p in range(start + 1, min(limit, len(line) - 1) + 1):
        if line[p] != ' ' or line[p - 1] == ' ': continue
        rest = line[p + 1:]
        if not anywhere and rest.startswith('.') and not rest.startswith('..'): continue        # a projection stays with its term
        if line[:p].endswith((' λ', '(λ', ' let', '(let', '↦')) and not line[:p].endswith('↦'): continue
        before = line[start:p]
        if not anywhere and re.search(r'λ[^.]*$', before): continue                               # within the binders of a λ
        c = d[p] * 24 + (limit - p) * 0.45
        word = rest.split(' ', 1)[0]
        if word in ('→', '×', '≡', '∷', '++', 'in', '|', 'then', 'else', '⊎', 'and', 'or', '≤', '<', '+', '='): c -= 22 if word == '→' else 8
        if before.endswith(('→', '×', '≡', '∷', '++', '+', '≤', '<', '=?', '≤?', '<?', '-', '%', '/', '*')): c += 14
        if before.endswith((' =', '↦', ' in')): c -= 8
        if word in ('↦', ':'): c += 20
        if best is None or c <= cost: best, cost = p, c
    return best

def wrap(line, column):
    out, indent = [], len(line) - len(line.lstrip(' '))
    follow = indent + 4 if DEEP or indent <= column else indent
    while len(line) > LIMIT:
        start = len(line) - len(line.lstrip(' '))
        p = break_at(line, start, LIMIT) or break_at(line, start, LIMIT, True)
        if p is None: break
        out.append(line[:p].rstrip(' '))
        line = ' ' * follow + line[p + 1:].lstrip(' ')
    out.append(line)
    return out

def wrap_use(line):
    m = re.match(r'(\s*(?:ghost )?use [^{]*\.\{)(.*)(\}.*)$', line)
    if not m: return [line]
    names, out, now = m[2].split(', '), [], []
    for n in names:
        if now and len(m[1] + ', '.join(now + [n]) + m[3]) > LIMIT:
            out.append(m[1] + ', '.join(now) + m[3]); now = []
        now.append(n)
    return out + [m[1] + ', '.join(now) + m[3]]

def wrap_comment(line):
    indent = re.match(r'\s*-- ?', line)[0]
    words, out, now = line[len(indent):].split(' '), [], indent
    for w in words:
        if now != indent and len(now + ' ' + w) > LIMIT:
            out.append(now); now = indent
        now += w if now == indent else ' ' + w
    return out + [now]

def main(path):
    text = open(path, encoding='utf-8').read()
    blocks, opened, out = [0], False, []
    for line in text.split('\n'):
        stripped = line.lstrip(' ')
        indent = len(line) - len(stripped)
        code = bool(stripped) and not stripped.startswith('--')
        if code:
            while len(blocks) > 1 and indent < blocks[-1]: blocks.pop()
            if opened and indent > blocks[-1]: blocks.append(indent)
            opened = False
        if len(line) > LIMIT:
            if stripped.startswith(('use ', 'ghost use ')): out += wrap_use(line)
            elif stripped.startswith('--'): out += wrap_comment(line)
            else: out += wrap(line, blocks[-1])
        else: out.append(line)
        if code and re.search(r'(^|\s)where$', line): opened = True
    new = '\n'.join(out)
    strip = lambda t: tokens('\n'.join(l for l in t.split('\n') if not re.match(r'\s*(--|(ghost )?use )', l)))
    assert strip(text) == strip(new), path
    if new != text: open(path, 'w', encoding='utf-8').write(new)
    return sum(len(l) > LIMIT for l in out)

left = 0
for path in sys.argv[1:]:
    n = main(path)
    left += n
    if n: print(path, n, 'lines still over', LIMIT)
print(left, 'lines left over', LIMIT)
