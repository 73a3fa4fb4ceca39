import re,glob,collections,sys
root=sys.argv[1] if len(sys.argv)>1 else '.'
defs={}; lines={}; body={}; files={}
for f in glob.glob(root+'/crates/*/specs/**/*.antt',recursive=True):
    if '/declared/' in f: continue
    text=open(f,encoding='utf8').read()
    crate=f.split('/crates/')[1].split('/')[0]
    # split into blocks by signature
    cur=None
    for l in text.split('\n'):
        m=re.match(r'(?:abbrev |unfoldable )?pub (?:abbrev |unfoldable )?(record |data )?([^\s:({]+)',l)
        if m and m[2] not in('mod','use') and not l.startswith(' '):
            cur=m[2]; defs[cur]=(crate,f); body[cur]=[]; lines[cur]=0; files.setdefault(f,[]).append(cur)
        if cur and l.strip() and not l.strip().startswith('--') and not l.startswith('use ') and not l.startswith('pub mod') :
            body[cur].append(l); lines[cur]+=1
tok=re.compile(r"[^\s(){}\[\];,.:\"`⌜⌝λ|]+")
uses={d:set(t for l in b for t in tok.findall(l) if t in defs and t!=d) for d,b in body.items()}
# operators like if_then_else_
roots=set()
for l in open(root+'/docs/promises.tsv',encoding='utf8').read().split('\n')[1:]:
    c=l.split('\t')
    if len(c)>5:
        for d in c[5].split():
            if ':' in d: roots.add(d.split(':')[1])
        for t in tok.findall(c[4]):
            if t in defs: roots.add(t)
seen=set(); todo=list(r for r in roots if r in defs)
while todo:
    d=todo.pop()
    if d in seen: continue
    seen.add(d); todo+=list(uses[d]-seen)
un=[d for d in defs if d not in seen and '/Inner' not in defs[d][1] and not re.search(r'worked_|test_|bench_rows|AnnexA|specs/Named|basics/specs/Types',defs[d][1]) and not d.startswith('_') and '_' not in d]
tot=sum(lines[d] for d in un)
print(len(un),'definitions,',tot,'lines not reached from an open promise')
by=collections.Counter()
for d in un: by[defs[d][1].split('/crates/')[1]]+=lines[d]
for k,v in by.most_common(40): print(v,k,[d for d in un if defs[d][1].endswith(k)][:12])
