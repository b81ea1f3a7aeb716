import sys,re
sys.argv_saved=sys.argv[1:]
src=open('/work/bin/clauses.py').read().split("for f in sys.argv[1:]:")[0]
exec(src)
def process(f):
    t=open(f).read(); o=t
    L=t.split('\n'); out=[]; i=0
    # join multi-line clauses that have a line > 160
    while i<len(L):
        l=L[i]
        if re.match(r"^\s*(ensures|requires)\b",l) and '⌜' in l and not re.search(r"⌝ \}\s*$",l):
            j=i+1
            while j<len(L) and not re.search(r"⌝ \}\s*$",L[j]): j+=1
            block=L[i:j+1]
            if max(len(x) for x in block)>160:
                out.append(block[0]+' '+' '.join(x.strip() for x in block[1:])); i=j+1; continue
            out+=block; i=j+1; continue
        out.append(l); i+=1
    # functions: count ensures
    res=[]; i=0; L=out
    pub=False; idx=[]
    def flush(): 
        pass
    sig=None
    for k,l in enumerate(L):
        if re.match(r"^\s*(pub )?(extern \"C\" )?fn |^\s*pub extern|^(pub )?fn ",l): sig=(k,l.strip().startswith('pub')); ens=[]
        if sig and re.match(r"^\s*ensures\b",l): ens.append(k)
        if sig and l.strip()=='{' :
            if sig[1] and len(ens)==1 and re.match(r"^\s*ensures \{",L[ens[0]]):
                L[ens[0]]=L[ens[0]].replace('ensures {','ensures result {',1)
            sig=None
    for l in L:
        if len(l)>160 and re.match(r"^\s*(ensures|requires)",l): res+=brk(l,False)
        else: res.append(l)
    t='\n'.join(res)
    if t!=o: open(f,'w').write(t); return True
n=0
for f in sys.argv_saved: n+=bool(process(f))
print(n)
