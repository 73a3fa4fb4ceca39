import re,sys,os
root=sys.argv[1]; n=0; miss=[]
for t in sys.argv[2:]:
    if not os.path.exists(t): continue
    for l in open(t,encoding='utf8'):
        w=l.split('#')[0].split()
        if len(w)<4: continue
        f,rec,old,new=w[0].rstrip(','),w[1].rstrip(','),w[2].rstrip(','),w[3]
        p=root+'/crates/'+f.replace('crates/','')
        if not os.path.exists(p): miss.append(l.strip()); continue
        s=open(p,encoding='utf8').read()
        for name in rec.split('|')[::-1]:
            m=re.search(r'(?m)^(?:abbrev |unfoldable )?pub (?:record |data )?%s[ :].*?(?=\n\n|\Z)'%re.escape(name), s, re.S)
            if m: break
        if not m: miss.append(l.strip()); continue
        block=m[0]
        tok=r"(?<![\w'·.-])%s(?![\w'·-])"%re.escape(old)
        # not after a dot (a projection), not a field declaration
        lines=block.split('\n'); out=[]
        for ln in lines:
            if ln.strip().startswith('--'): out.append(ln); continue
            out.append(re.sub(tok,new,ln))
        nb='\n'.join(out)
        if nb==block: miss.append('nothing: '+l.strip()); continue
        s=s[:m.start()]+nb+s[m.end():]
        open(p,'w',encoding='utf8').write(s); n+=1
print(n,'parameters renamed;',len(miss),'missed'); print('\n'.join(miss[:20]))
