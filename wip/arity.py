import re,subprocess,sys
W="A-Za-z0-9_′″'\\-₀-₉"
pos={'writeFaultBy':3,'writeFault':2,'writeResultBy':3,'writeResult':2,'writeByRule':2,'writeDone':2,'writeUnless':3,
'removeFaultBy':3,'removeFault':2,'removeResultBy':3,'removeResult':2,'removeByRule':2,'removeDone':2,'removeUnless':3,
'basketFaultBy':3,'basketFault':2,'basketResultBy':3,'basketResult':2,'basketByRule':2,'basketDone':2,'basketUnless':3,'indexAfter':2,
'WriteLookup':3,'RemoveLookup':3}
def atom(t,i):
    n=len(t)
    while i<n and t[i] in ' \n': i+=1
    if i>=n: return None,i
    j=i
    if t[i]=='(' or t[i]=='[' or t[i]=='{':
        o=t[i]; c={'(':')','[':']','{':'}'}[o]; d=0
        while j<n:
            if t[j]==o: d+=1
            if t[j]==c:
                d-=1
                if d==0: return t[i:j+1],j+1
            j+=1
        return None,i
    if t[i] in ')]},;∙≡→=×∷': return None,i
    while j<n and t[j] not in ' \n()[]{},;': j+=1
    return t[i:j],j
def group(A,B,C):
    m=re.match(r"\((.+) \.heads\)$",A); m2=re.match(r"\((.+) \.next\)$",B); m3=re.match(r"\((.+) \.state\)$",C)
    if m and m2 and m3 and m.group(1)==m2.group(1)==m3.group(1): return "(%s .index)"%m.group(1)
    if A==B==C=='_': return '_'
    return "(indexOf %s %s %s)"%(A,B,C)
def run(t):
    pat=re.compile(r"(?<![%s.])(%s)(?![%s])"%(W,'|'.join(sorted(pos,key=len,reverse=True)),W))
    i=0;out='';n=0
    while True:
        m=pat.search(t,i)
        if not m: out+=t[i:]; break
        out+=t[i:m.end()]; name=m.group(1); j=m.end(); p=pos[name]
        # skip import groups / signatures
        k=j; args=[]; ok=True; starts=[]
        for q in range(p+3):
            a,k2=atom(t,k)
            if a is None: ok=False;break
            s=k
            while t[s] in ' \n': s+=1
            starts.append(s); args.append(a); k=k2
        if not ok or args[0] in (':',): i=j; continue
        if any(x in (':','→','=') for x in args): i=j; continue
        # already converted?
        g=group(*args[p:p+3])
        pre=t[j:starts[p]]
        inner=run(pre)[0]
        A=[run(x)[0] for x in args[p:p+3]]
        out+=inner+group(*A); i=k; n+=1
    return out,n
if __name__=='__main__':
    tot=0
    for f in sys.argv[1:]:
        t=open(f).read(); segs=re.split(r"((?:^[ ]*unfolding .*\n)+|(?:^(?:ghost |unfoldable |pub )*use .*\n)+)",t,flags=re.M); t2='';n=0
        for k,sg in enumerate(segs):
            if k%2: t2+=sg
            else:
                r,m=run(sg); t2+=r; n+=m
        if n: open(f,'w').write(t2); print(f,n); tot+=n
    print(tot)
