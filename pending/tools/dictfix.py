# renames identifiers inside bin/dictionary by the tables, whole words only; ROOT then tables
import re,sys,glob
root=sys.argv[1]; p=root+'/bin/dictionary'; s=open(p,encoding='utf8').read()
known=set()
for f in glob.glob(root+'/crates/**/*.antt',recursive=True)+glob.glob(root+'/crates/dictionary/src/*.rt')+glob.glob(root+'/crates/store/src/*.rt')+glob.glob(root+'/crates/print/src/*.rt'):
    known.update(re.findall(r"[A-Za-z_][\w'-]*",open(f,encoding='utf8').read()))
COL=set('Named fail nowhere tag name least greatest form setters templates answers required section annex constant start card session any record row line rows file page first'.split())
m={}
words=None
for t in sys.argv[2:]:
    for l in open(t,encoding='utf8'):
        l=l.split('#')[0].split()
        if len(l)<3 or l[0] not in 'DTF': continue
        o,new=l[1].split('::')[-1],l[2]
        if l[0]=='F' and l[1]=='print::table::words' or (l[0]=='F' and words and o==words): words=new
        if l[0]=='F' and '_' not in o: continue
        for k,v in list(m.items()):
            if v==o: m[k]=new
        m.setdefault(o,new)
m={o:v for o,v in m.items() if o not in COL and v in known}
n=[]
def sub(x):
    w=x[0]
    if w in m: n.append((w,m[w])); return m[w]
    return w
def lit(q): return re.sub(r"[A-Za-z_][\w']*", sub, q[0])
s=re.sub(r'"(?:[^"\\\n]|\\.)*"|\'(?:[^\'\\\n]|\\.)*\'', lit, s)
if words:
    s=s.replace('crate::table::words','crate::table::'+words); s=re.sub(r'(["\'] *)words\(', lambda q:q[1]+words+'(', s)
open(p,'w',encoding='utf8').write(s); print('bin/dictionary:',len(n),'words',sorted(set(n)), words)
