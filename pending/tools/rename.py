#!/usr/bin/env python3
"""Renames identifiers of the repository by a table: rename.py [--table FILE] [--dry] [--quiet] ROOT

The table has a row for each name: `D old new [crate]` a definition of specs/ (of that crate, where two crates have one of the name),
`T old new` a type of src/, `F crate::[module::]old new` an open function. Everything is renamed where it is in scope, by whole identifiers:

  antt, and the contracts of .rt   a definition where the file imports it from specs/ or defines it (not a field of that name, and not a
                                   name that was imported as another); a type where it comes from specs/declared
  .rt                              a type in its crate and in the files that name its crate; a function by its path
  proofs/                          the folder of a function, module paths, and in the proofs of its callers the names that the checker
                                   makes of it (`.is-there`, `tie.Need-part-search-end`)
  must-fail/*.edit                 as the file that the edit changes
  comments, .md                    a name in backticks; .md outside docs/landings, and never in docs/GLOSSARY.md's "What was decided"

A row whose old name the tree does not define is skipped and said, so that the script runs on any branch, and again. Exits 1 and changes
nothing where a new name is an identifier of the tree already (`--force` goes on), or where the table is not one-to-one.
"""
import os, re, sys, glob, collections

IDENT = re.compile(r"[^\s(){}\[\];,.:\"`⌜⌝λ|]+")
RTIDENT = re.compile(r"[A-Za-z_][A-Za-z0-9_]*")
USE = re.compile(r"(?<![\w·])use\s+(Rattle·[^\s{;]*?)(?:\.\{([^}]*)\}|(?=\s|;|$))", re.S)
# words that a comment or a page may have in backticks without meaning the name
AMBIGUOUS = set("""has bit same search tags codes fits later above p1 choose five count words held named margin line keep answered after
first part given size problem view walk always both eight reported declined approved certificate consulted padded truncated numeric
compressed optional required filter halve unless nowhere misplaced primitive Bytes Size Problem Part Given After First View Walk Filled
Cause Holder Named Names Balanced Conforming Fault Line""".split())

# names that the checker has taken already, so that it counts a call of that name from 2 on
RESERVED = {'fits'}

def kebab(s): return s.replace('_', '-')

class Table:
    def __init__(self, path):
        self.D, self.T, self.F, self.home = {}, {}, [], {}
        seen = collections.Counter()
        for n, line in enumerate(open(path, encoding='utf-8'), 1):
            line = line.split('#')[0].strip()
            if not line: continue
            kind, old, new, *home = line.split()
            if kind == 'D':
                assert old not in self.D, old
                self.D[old] = new
                if home: self.home[old] = home[0]
            elif kind == 'T': assert old not in self.T, old; self.T[old] = new
            elif kind == 'F':
                p = old.split('::')
                self.F.append((p[0], p[1] if len(p) == 3 else '', p[-1], new))
            else: raise SystemExit('table line %d' % n)
            seen[kind, new] += 1
        twice = [k for k, c in seen.items() if c > 1]
        if twice: raise SystemExit('two rows give one new name: %s' % twice)
        chain = (set(self.D) & set(self.D.values())) | (set(self.T) & set(self.T.values())) | ({f[2] for f in self.F} & {f[3] for f in self.F})
        if chain: raise SystemExit('a new name is an old one: %s' % sorted(chain))

def read(f): return open(f, encoding='utf-8', newline='').read()

def crate_of(rel):
    p = rel.split('/')
    return p[1] if p[0] == 'crates' and len(p) > 1 else ''

def module_of(rel):
    """the module of a source file: '' for lib.rt and main.rt"""
    b = os.path.basename(rel)[:-3]
    return '' if b in ('lib', 'main') else b

DEF = re.compile(r'^(?:abbrev |unfoldable )?(?:pub )?(?:abbrev |unfoldable )?(?:record |data )?([^\s:({]+)(?=\s*[:({\s])', re.M)

class Tree:
    def __init__(self, root, table):
        self.root, self.t = root, table
        self.files = {}
        for base, dirs, names in os.walk(root):
            dirs[:] = [d for d in dirs if d not in ('.git', 'target') and not (d == 'declared' and base.endswith('/specs'))]
            for n in names:
                rel = os.path.relpath(os.path.join(base, n), root)
                if n.endswith(('.antt', '.rt', '.edit', '.md')):
                    self.files[rel] = read(os.path.join(root, rel))
        self.specdefs = collections.defaultdict(set)      # name -> spec files that define it
        for rel, s in self.files.items():
            if re.match(r'crates/[^/]+/specs/', rel) and rel.endswith('.antt'):
                for m in re.finditer(r'^(?:abbrev |unfoldable )?pub (?:abbrev |unfoldable )?(?:record |data )?([^\s:({]+)', s, re.M):
                    self.specdefs[m[1]].add(rel)
        self.typecrate = {}
        self.fns = set()
        for rel, s in self.files.items():
            if rel.endswith('.rt'):
                for m in re.finditer(r'^\s*(?:pub )?(?:struct|enum) (\w+)', s, re.M): self.typecrate[m[1]] = crate_of(rel)
                for m in re.finditer(r'^\s*(?:pub(?:\([^)]*\))? )?(?:extern "C" )?fn (\w+)', s, re.M): self.fns.add((crate_of(rel), module_of(rel), m[1]))
        self.D = {o: n for o, n in table.D.items() if o in self.specdefs}
        self.crates = {}                                  # name -> the crates whose definition it is; the row's own where there are two
        for o in list(self.D):
            crates = {crate_of(f) for f in self.specdefs[o]}
            if table.home.get(o) not in crates and table.home.get(o) in {crate_of(f) for f in self.specdefs.get(self.D[o], ())}:
                del self.D[o]; continue                   # done already; the one that is left is another crate's own
            if len(crates) > 1 and table.home.get(o) in crates: crates = {table.home[o]}
            elif table.home.get(o) and table.home[o] not in crates:
                print('note: %s was in %s and is in %s here: see that it is the same' % (o, table.home[o], ', '.join(sorted(crates))))
            self.crates[o] = crates
        self.T = {o: n for o, n in table.T.items() if o in self.typecrate}
        self.F = [f for f in table.F if (f[0], f[1], f[2]) in self.fns]
        self.skipped = [('D', o) for o in table.D if o not in self.D] + [('T', o) for o in table.T if o not in self.T] \
            + [('F', '::'.join(x for x in f[:3] if x)) for f in table.F if f not in self.F]
        self.changes = collections.Counter()
        self.moves = []

    # ---- what a file has in scope
    def imports(self, s):
        """(start of path, path, start of list or -1, list text) of each import"""
        for m in USE.finditer(s):
            yield m.start(1), m[1], m.start(2), m[2]

    @staticmethod
    def elements(text, at):
        """(start, name, alias or None) of each element of an import list"""
        pos = 0
        for part in text.split(','):
            m = re.match(r'\s*(\S+)(?:\s+as\s+(\S+))?\s*$', part, re.S)
            if m: yield at + pos + m.start(1), m[1], m[2]
            pos += len(part) + 1

    def scope(self, rel, s):
        """names of definitions and types that tokens of this file mean, module aliases, and edits inside the import lists"""
        defs, types, aliases, edits = set(), set(), set(), []
        for at, path, lat, text in self.imports(s):
            segs = path.split('.')
            crate = re.match(r'Rattle·(\w+)', segs[0])[1]
            spec = 'specs' in segs
            declared = 'declared' in segs
            if spec and declared:
                i = segs.index('declared')
                pos = at + len('.'.join(segs[:i + 1]))
                for seg in segs[i + 1:]:
                    pos += 1
                    if seg in self.T: edits.append((pos, pos + len(seg), self.T[seg], ('T', seg)))
                    pos += len(seg)
            elif spec:
                i = segs.index('specs') if not segs[0].endswith('·specs') else 1
                pos = at + len('.'.join(segs[:i + 2]))
                for seg in segs[i + 2:]:
                    pos += 1
                    if seg in self.D and crate in self.crates[seg]: edits.append((pos, pos + len(seg), self.D[seg], ('D', seg)))
                    pos += len(seg)
            elif 'proofs' in segs:
                i = segs.index('proofs')
                for k, m, o, n in self.F:
                    tail = [m, o] if m else [o]
                    if k == crate and segs[i + 1:i + 1 + len(tail)] == tail and len(segs) > i + 1 + len(tail) - (0 if lat >= 0 else 0):
                        pos = at + len('.'.join(segs[:i + len(tail)])) + 1
                        edits.append((pos, pos + len(o), n, ('F', o)))
            if lat < 0:
                m = re.match(r'\s+as\s+([^\s;]+)', s[at + len(path):])
                if m and spec and not declared: aliases.add(m[1])
                continue
            for pos, name, alias in self.elements(text, lat):
                if spec and not declared and name in self.D and crate in self.crates[name]:
                    edits.append((pos, pos + len(name), self.D[name], ('D', name)))
                    if not alias: defs.add(name)
                elif declared and name in self.T and segs[-1] == name:
                    edits.append((pos, pos + len(name), self.T[name], ('T', name)))
                    if not alias: types.add(name)
        for name in self.D:
            if rel in self.specdefs[name] and crate_of(rel) in self.crates[name]: defs.add(name)
        return defs, types, aliases, edits

    # ---- tokens
    def spans(self, s, comment):
        """(start, end, is_comment) pieces of a text"""
        pat = re.compile(re.escape(comment) + r'[^\n]*')
        at = 0
        for m in pat.finditer(s):
            if comment == '--' and m.start() and not s[m.start() - 1].isspace(): continue
            if comment == '//' and s.count('"', s.rfind('\n', 0, m.start()) + 1, m.start()) % 2: continue
            if m.start() < at: continue
            yield at, m.start(), False
            yield m.start(), m.end(), True
            at = m.end()
        yield at, len(s), False

    def is_field(self, s, i, j):
        if i and s[i - 1] == '.' and (i < 2 or s[i - 2].isspace() or s[i - 2] in '()'): return True
        k = i - 1
        while k >= 0 and s[k].isspace(): k -= 1
        m = re.match(r'\s*=(?![?≡=])', s[j:])
        if m and k >= 0 and s[k] in '{;': return True
        line = s.rfind('\n', 0, i) + 1
        if re.match(r'\s+pub $', s[line:i]) and re.match(r'\s*:', s[j:]): return True
        return False

    def antt_edits(self, s, scope, edits, lo=0, hi=None):
        defs, types, aliases, _ = scope
        hi = len(s) if hi is None else hi
        covered = [(a, b) for a, b, _, _ in edits]
        uses = [(m.start(), m.end()) for m in USE.finditer(s)]
        for m in IDENT.finditer(s, lo, hi):
            i, j, w = m.start(), m.end(), m[0]
            if w not in self.D and w not in self.T: continue
            if any(a <= i < b for a, b in uses): continue
            if w in defs or w in types:
                new = self.D[w] if w in defs else self.T[w]
                if self.is_field(s, i, j): continue
                if i and s[i - 1] == '.':
                    q = re.search(r"([^\s(){}\[\];,.:]+)\.$", s[max(0, i - 80):i])
                    if q and q[1] not in aliases: continue
                edits.append((i, j, new, ('D' if w in defs else 'T', w)))
            elif i and s[i - 1] == '.' and w in self.D:
                q = re.search(r"([^\s(){}\[\];,.:]+)\.$", s[max(0, i - 80):i])
                if q and q[1] in aliases: edits.append((i, j, self.D[w], ('D', w)))

    def tick_edits(self, s, lo, hi, crate, edits):
        """names in backticks of a comment or a page"""
        for m in re.finditer(r'`([^`\n]+)`', s[lo:hi]):
            base = lo + m.start(1)
            for t in re.finditer(r"[A-Za-z_][\w'·-]*(?:::[A-Za-z_]\w*)*", m[1]):
                w = t[0]; i = base + t.start(); j = base + t.end()
                if '::' in w:
                    p = w.split('::')
                    for k, mod, o, n in self.F:
                        if p[-1] == o and (p[-2] == mod if mod else p[-2] == k) and (len(p) == 2 or p[-3] == k):
                            edits.append((j - len(o), j, n, ('F', o)))
                            break
                    else:
                        if p[-1] in self.T and p[-2] == self.typecrate[p[-1]]: edits.append((j - len(p[-1]), j, self.T[p[-1]], ('T', p[-1])))
                    continue
                if w in AMBIGUOUS: continue
                if w in self.D: edits.append((i, j, self.D[w], ('D', w)))
                elif w in self.T: edits.append((i, j, self.T[w], ('T', w)))
                else:
                    for k, mod, o, n in self.F:
                        if w == o and '_' in o: edits.append((i, j, n, ('F', o))); break

    def fn_calls(self, s, rel, lo=0, hi=None):
        """(start, end, row) of each token that means a renamed function"""
        crate, module = crate_of(rel), module_of(rel)
        names = {}
        for row in self.F: names.setdefault(row[2], []).append(row)
        hi = len(s) if hi is None else hi
        full = self.files.get(rel, s)
        for m in RTIDENT.finditer(s, lo, hi):
            if m[0] not in names: continue
            i, j = m.start(), m.end()
            path = re.search(r'((?:\w+::)*)$', s[max(0, i - 100):i])[1]
            segs = path.split('::')[:-1]
            called = s[j:j + 1] == '(' and s.rfind('⌜', 0, i) <= s.rfind('⌝', 0, i)
            line = s[s.rfind('\n', 0, i) + 1:i]
            in_use = bool(re.match(r'\s*(?:pub )?use\b', line))
            if not called and not in_use: continue
            if i and s[i - 1] == '.': continue
            for row in names[m[0]]:
                k, mod, o, n = row
                if in_use:
                    base = re.sub(r'^\s*(?:pub )?use\s+', '', line)
                    p = [x for x in re.split(r'::|\{|,|\s', base) if x]
                    ok = (p[:1] in ([k], ['crate']) and (k == crate or p[0] != 'crate')) and (not mod or mod in p)
                elif not segs:
                    imported = re.search(r'\buse\s+(?:%s)::%s(?:%s\b|\{[^}]*\b%s\b)' % (('crate|' + k) if crate == k else k, mod + '::' if mod else '', o, o), full)
                    ok = (crate == k and module == mod) or bool(imported)
                elif mod:
                    ok = segs[-1] == mod and (len(segs) == 1 and (crate == k or bool(re.search(r'\buse\s+%s::(?:%s\b|\{[^}]*\b%s\b)' % (k, mod, mod), full)))
                                              or len(segs) > 1 and segs[-2] in (k, 'crate') and (segs[-2] == k or crate == k))
                else:
                    ok = segs == [k] or (crate == k and segs in (['crate'], ['super']))
                if ok:
                    yield i, j, row
                    break

    LITERAL = re.compile(r"""//[^\n]*|"(?:\\.|[^"\\])*"|'(?:\\.|[^'\\\n])'""", re.S)

    def rt_edits(self, s, rel, edits, scope):
        defs, types, aliases, imports = scope
        crate = crate_of(rel)
        strings = [(m.start(), m.end()) for m in self.LITERAL.finditer(s) if m[0][0] != '/']
        found = []
        self.rt_tokens(s, rel, found, scope)
        edits += [e for e in found if not any(a <= e[0] < b for a, b in strings)]

    def rt_tokens(self, s, rel, edits, scope):
        defs, types, aliases, imports = scope
        crate = crate_of(rel)
        for lo, hi, comment in self.spans(s, '//'):
            if comment:
                self.tick_edits(s, lo, hi, crate, edits); continue
            piece = []
            self.antt_edits(s, (defs, types, aliases, None), piece, lo, hi)
            for e in piece:
                w = e[3][1]
                if e[3][0] == 'D' and not re.search('[A-Z]', w):
                    before = s[:e[0]]
                    open_clause = max(before.rfind('ensures'), before.rfind('requires'), before.rfind('invariant'))
                    if s.rfind('⌜', 0, e[0]) <= s.rfind('⌝', 0, e[0]) : continue
                edits.append(e)
            for m in RTIDENT.finditer(s, lo, hi):
                w = m[0]
                if w not in self.T: continue
                k = self.typecrate[w]
                if crate != k and not re.search(r'\b%s::' % k, self.files.get(rel, s)): continue
                if crate != k and not re.search(r'\buse\s+%s::[^;]*\b%s\b' % (k, w), self.files.get(rel, s)) and not re.search(r'\b%s::(?:\w+::)*$' % k, s[max(0, m.start() - 60):m.start()]): continue
                if re.search(r'\b[A-Z]\w*::$', s[max(0, m.start() - 60):m.start()]): continue
                if s.rfind('⌜', 0, m.start()) > s.rfind('⌝', 0, m.start()) and re.search(r'use\s+Rattle·[^;{]*\.specs\.(?!declared)[^;{]*\{[^}]*\b%s\b' % w, self.files.get(rel, s)): continue
                if any(a <= m.start() < b for a, b in ((u.start(), u.end()) for u in USE.finditer(s))): continue
                edits.append((m.start(), m.end(), self.T[w], ('T', w)))
            for i, j, row in self.fn_calls(s, rel, lo, hi): edits.append((i, j, row[3], ('F', row[2])))

    def fn_bodies(self, crate):
        """module, function, body of each function of a crate"""
        for rel, s in self.files.items():
            if not re.match(r'crates/%s/src/.*\.rt$' % crate, rel): continue
            heads = list(re.finditer(r'^[ \t]*(?:pub(?:\([^)]*\))? )?(?:extern "C" )?fn (\w+)', s, re.M))
            for a, h in enumerate(heads):
                yield rel, module_of(rel), h[1], h.end(), heads[a + 1].start() if a + 1 < len(heads) else len(s)

    def apply(self, s, edits):
        out, at = [], 0
        done = {}
        for i, j, new, what in edits:
            if (i, j) in done: continue
            done[i, j] = (new, what)
        for (i, j), (new, what) in sorted(done.items()):
            if i < at: raise SystemExit('overlap at %r' % s[i - 40:j + 40])
            out.append(s[at:i]); out.append(new); at = j
            self.changes[what + (new,)] += 1
        out.append(s[at:])
        return ''.join(out)

    def run(self):
        new = {}
        callees = collections.defaultdict(list)     # (crate, module, function) -> rows of renamed functions that it calls
        for crate in {crate_of(r) for r in self.files if crate_of(r)}:
            for rel, mod, fn, lo, hi in self.fn_bodies(crate):
                for i, j, row in self.fn_calls(self.files[rel], rel, lo, hi):
                    if row not in callees[crate, mod, fn]: callees[crate, mod, fn].append(row)
        for rel, s in self.files.items():
            edits = []
            if rel.endswith('.antt'):
                scope = self.scope(rel, s)
                edits += scope[3]
                for lo, hi, comment in self.spans(s, '--'):
                    if comment: self.tick_edits(s, lo, hi, crate_of(rel), edits)
                    else: self.antt_edits(s, scope, edits, lo, hi)
                m = re.match(r'crates/([^/]+)/proofs/(?:([a-z_0-9]+)/)?\+?([a-z_0-9]+)/[^/]+\.antt$', rel)
                if m:
                    key = (m[1], m[2] or '', m[3])
                    self.context_edits(s, callees.get(key, []), edits)
                    for k, mod, o, n in self.F:
                        if (k, mod, o) == key:
                            for t in IDENT.finditer(s):
                                if t[0] == kebab(o) + '-spec': edits.append((t.start(), t.end(), kebab(n) + '-spec', ('F', o)))
            elif rel.endswith('.rt'):
                scope = self.scope(rel, s)
                edits += scope[3]
                self.rt_edits(s, rel, edits, scope)
            elif rel.endswith('.edit'):
                m = re.search(r'^file:\s*(\S+)', s, re.M)
                target = os.path.join('crates', crate_of(rel), m[1]) if m else None
                if target and target in self.files:
                    t = self.files[target]
                    scope = self.scope(target, t)
                    own = self.scope(rel, s)
                    edits += own[3]
                    if target.endswith('.rt'): self.rt_edits(s, target, edits, scope)
                    else: self.antt_edits(s, scope, edits)
            elif rel.endswith('.md') and not rel.startswith('docs/landings/'):
                self.tick_edits(s, 0, len(s), '', edits)
            r = self.apply(s, edits) if edits else s
            if r != s: new[rel] = r
        for k, mod, o, n in self.F:
            for base in ('crates/%s/proofs/%s%s' % (k, mod + '/' if mod else '', o),):
                if os.path.isdir(os.path.join(self.root, base)):
                    self.moves.append((base, os.path.join(os.path.dirname(base), n)))
        return new

    def context_edits(self, s, rows, edits):
        """names that the checker makes of a called function's name"""
        if not rows: return
        for m in IDENT.finditer(s):
            w, i, j = m[0], m.start(), m.end()
            for k, mod, o, n in rows:
                q = kebab(o)
                if i and s[i - 1] == '.' and (s[i - 2].isspace() or s[i - 2] in '()'):
                    f = re.fullmatch(re.escape(q) + r'(\d*)', w)
                    if f and self.is_context(s, i, j, q):
                        number = f[1]
                        if q in RESERVED and number: number = '' if number == '2' else str(int(number) - 1)
                        edits.append((i, j, kebab(n) + number, ('F', o))); break
                elif s[max(0, i - 4):i] == 'tie.':
                    f = re.fullmatch(r'(After-|In-|Need-(?:(?:part|slice-aggregate|slice-write|slice-read|shared-slice-read|add|sub|mul|div|rem|cast|shl)-)?)' + re.escape(q) + r'(\d*(?:-(?:requires|end|start|length|result))?(?:-\d+)?)', w)
                    if f:
                        edits.append((i, j, f[1] + kebab(n) + f[2], ('F', o))); break

    def is_context(self, s, i, j, q):
        """a field of that name may be a record's own: the call's is asked for a result or a promise, or comes after `before`"""
        if re.match(r'\d*\s*\.(?:ensures|result|last|exit)\b', s[j:j + 20]): return True
        if re.search(r'(?:\.before|[ (]c|\.came)\s+\.$', s[max(0, i - 12):i]): return True
        return False

def extras(path, new, tree):
    """words of comments and pages, each exact"""
    done = 0
    if not os.path.exists(path): return done
    for line in open(path, encoding='utf-8'):
        if line.startswith('#') or not line.strip(): continue
        rel, old, to = line.rstrip('\n').split('\t')
        src = rel
        for a, b in tree.moves:
            if rel.startswith(b + '/'): src = a + rel[len(b):]
        if src not in tree.files: src = rel
        if src not in tree.files: continue
        s = new.get(src, tree.files[src])
        if old in s:
            new[src] = s.replace(old, to); done += 1
    return done

def tokens_of(tree):
    found = collections.defaultdict(set)
    for rel, s in tree.files.items():
        if rel.endswith('.md'): continue
        comment = '//' if rel.endswith(('.rt', '.edit')) else '--'
        for lo, hi, c in tree.spans(s, comment):
            if c: continue
            for m in (RTIDENT if rel.endswith('.rt') else IDENT).finditer(s, lo, hi): found[m[0]].add(rel)
            if rel.endswith('.rt'):
                for m in IDENT.finditer(s, lo, hi): found[m[0]].add(rel)
    return found

def main():
    args = [a for a in sys.argv[1:]]
    dry = '--dry' in args; force = '--force' in args; quiet = '--quiet' in args
    path = os.path.join(os.path.dirname(os.path.abspath(__file__)), 'table.txt')
    if '--table' in args:
        path = args[args.index('--table') + 1]; args.remove(path)
    root = [a for a in args if not a.startswith('--')][0]
    table = Table(path)
    tree = Tree(root, table)
    found = tokens_of(tree)
    bad = []
    for kind, rows in (('D', tree.D.items()), ('T', tree.T.items()), ('F', [(f[2], f[3]) for f in tree.F])):
        for o, n in rows:
            w = n if kind != 'F' else n
            if w in found: bad.append('%s %s -> %s: is in %s' % (kind, o, n, ', '.join(sorted(found[w])[:3])))
            if kind == 'F' and kebab(n) in found and kebab(n) != n: bad.append('F %s -> %s: %s is in %s' % (o, n, kebab(n), ', '.join(sorted(found[kebab(n)])[:3])))
    for b in bad: print('collision:', b)
    if bad and not force: sys.exit(1)
    new = tree.run()
    more = extras(os.path.splitext(path)[0] + '.extra.txt', new, tree)
    if not quiet:
        for (kind, o, n), c in sorted(tree.changes.items()): print('%s %-28s %-34s %4d' % (kind, o, n, c))
        for k, o in tree.skipped: print('skipped, not defined here: %s %s' % (k, o))
        for a, b in tree.moves: print('folder %s -> %s' % (a, b))
    unused = [o for o in tree.D if not any(k[0] == 'D' and k[1] == o for k in tree.changes)] + [o for o in tree.T if not any(k[:2] == ('T', o) for k in tree.changes)] + [f[2] for f in tree.F if not any(k[:2] == ('F', f[2]) for k in tree.changes)]
    if unused: print('renamed nowhere:', unused)
    print('%d files, %d places, %d folders; %d rows applied, %d skipped' % (len(new), sum(tree.changes.values()), len(tree.moves), len(tree.D) + len(tree.T) + len(tree.F), len(tree.skipped)))
    print('%d words of comments and pages by the extra table' % more)
    if dry: return
    for rel, s in new.items():
        with open(os.path.join(root, rel), 'w', encoding='utf-8', newline='') as f: f.write(s)
    for a, b in tree.moves: os.rename(os.path.join(root, a), os.path.join(root, b))

if __name__ == '__main__': main()
