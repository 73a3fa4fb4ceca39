import glob,sys
root=sys.argv[1]; t=0;o=0;n=0
for f in glob.glob(root+'/crates/*/proofs/**/*.antt',recursive=True):
    for l in open(f,encoding='utf8'):
        l=l.rstrip('\n'); s=l.strip()
        if len(l)>120: o+=1
        if s and not s.startswith('--') and not s.startswith('use '): t+=len(s); n+=1
print(root,t,'characters',n,'lines;',o,'over 120')
