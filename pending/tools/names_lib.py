"""Lists every type and open function of crates/*/src and every definition of crates/*/specs (outside declared/)."""
import glob, re, os

def types_and_functions(root):
    for f in sorted(glob.glob(os.path.join(root, 'crates/*/src/**/*.rt'), recursive=True)):
        rel = os.path.relpath(f, root); crate = rel.split('/')[1]
        lines = open(f, encoding='utf-8').read().split('\n')
        for i, line in enumerate(lines):
            m = re.match(r'\s*(?:pub )?(struct|enum) (\w+)', line)
            m2 = re.match(r'\s*pub (?:extern "C" )?fn (\w+)', line)
            if not m and not (m2 and m2[1] != 'main'): continue
            c = []
            k = i - 1
            while k >= 0 and re.match(r'\s*//', lines[k]): c.insert(0, lines[k].strip()[2:].strip()); k -= 1
            if m:
                sig = [line.strip()]; k = i
                if '{' in line or not line.rstrip().endswith(';'):
                    while k < len(lines) and '}' not in lines[k] and not lines[k].rstrip().endswith(');'):
                        k += 1; sig.append(lines[k].strip())
                sig = ' '.join(x for x in sig if not x.startswith('//'))
                yield ('type', m[2], sig, crate, rel, i + 1, ' '.join(c), '')
            else:
                sig = [line.strip()]; k = i
                while True:
                    t = ' '.join(sig)
                    if t.count('(') and t.count('(') == t.count(')') and (re.search(r'\)\s*->\s*[^\s{]+', t) or k + 1 >= len(lines) or re.match(r'\s*(ensures|requires|\{|where|modifies|measure)', lines[k+1]) or t.endswith('{')): break
                    k += 1; sig.append(lines[k].strip())
                t = ' '.join(sig).rstrip('{ ').strip()
                ens = []
                k += 1
                while k < len(lines) and not lines[k].startswith('{') and not lines[k].strip() == '{' and not lines[k].startswith('}') and len(ens) < 6:
                    ens.append(lines[k].strip()); k += 1
                yield ('open function', m2[1], t, crate, rel, i + 1, ' '.join(c), ' '.join(ens)[:300])

def definitions(root):
    for f in sorted(glob.glob(os.path.join(root, 'crates/*/specs/**/*.antt'), recursive=True)):
        if '/declared/' in f: continue
        rel = os.path.relpath(f, root); crate = rel.split('/')[1]
        lines = open(f, encoding='utf-8').read().split('\n')
        for i, line in enumerate(lines):
            m = re.match(r'(?:abbrev |unfoldable )?pub (?:abbrev |unfoldable )?(record |data )?([^\s:({]+)', line)
            if not m or m[2] in ('mod', 'use'): continue
            c = []; k = i - 1
            while k >= 0 and lines[k].startswith('--'): c.insert(0, lines[k][2:].strip()); k -= 1
            sig = [re.sub(r'^(abbrev |unfoldable |pub )+', '', line).strip()]; k = i + 1
            if m[1]:
                while k < len(lines) and lines[k].strip() and lines[k].startswith(' '):
                    if not lines[k].strip().startswith('--'): sig.append(lines[k].strip())
                    k += 1
                body = ''
            else:
                while k < len(lines) and lines[k].startswith(' '):
                    sig.append(lines[k].strip()); k += 1
                b = []
                while k < len(lines) and lines[k].strip():
                    b.append(lines[k].strip()); k += 1
                body = ' ; '.join(b)
            yield ('definition', m[2], ' '.join(sig), crate, rel, i + 1, ' '.join(c), body)

def everything(root):
    yield from types_and_functions(root)
    yield from definitions(root)
