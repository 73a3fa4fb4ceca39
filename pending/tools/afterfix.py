import re,glob,sys,collections,os
root=sys.argv[1]; apply='--apply' in sys.argv
m=collections.defaultdict(set)
chain=[]
for t in ['table.txt','late_table.txt','final_P1.txt','final_P3.txt','final_P4.txt']:
    try: L=open('rename/'+t,encoding='utf8')
    except OSError: continue
    step={}
    for l in L:
        w=l.split('#')[0].split()
        if len(w)>=3 and w[0]=='F': step.setdefault(w[1].split('::')[-1],set()).add(w[2])
    chain.append(step)
def finals(o):
    cur={o}
    for st in chain:
        nxt=set()
        for c in cur:
            nxt|=st.get(c,set()); nxt.add(c)
        cur=nxt
    return cur
keb=lambda s:s.replace('_','-'); sn=lambda s:s.replace('-','_')
src={}
for f in glob.glob(root+'/crates/*/src/**/*.rt',recursive=True):
    crate=f.split('/crates/')[1].split('/')[0]
    t=open(f,encoding='utf8').read()
    t=re.sub(r'//[^\n]*','',t)
    for mm in re.finditer(r'\bfn (\w+)',t):
        j=t.find('\n}\n',mm.end()); 
        src.setdefault((crate,mm[1]),'') ; src[(crate,mm[1])]+=t[mm.end():j if j>0 else len(t)]
for f in glob.glob(root+'/crates/*/proofs/**/Proof.antt',recursive=True):
    crate=f.split('/crates/')[1].split('/')[0]; fn=f.split('/')[-2]
    body=src.get((crate,fn))
    if body is None: continue
    ids=set(re.findall(r'\w+',body))
    s=open(f,encoding='utf8').read()
    def sub(x):
        name=x[2]; base=re.sub(r'\d+$','',name); num=name[len(base):]
        if sn(base) in ids or sn(name) in ids: return x[0]
        c=[n for n in finals(sn(base)) if n in ids and n!=sn(base)]
        if len(c)==1:
            print(f.replace(root,''),x[0],'->',x[1]+keb(c[0])+num); return x[1]+keb(c[0])+num
        return x[0]
    n=re.sub(r'(After-|Before-|At-)([a-z][a-z0-9-]*)', sub, s)
    if apply and n!=s: open(f,'w',encoding='utf8').write(n)
