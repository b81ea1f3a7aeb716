import re,sys,textwrap
W=120
def run(f):
    t=open(f).read(); o=t; mark='--' if f.endswith('.antt') else '//'
    L=t.split('\n'); out=[]; i=0
    pat=re.compile(r"^(\s*)%s( |$)(?!----)(.*)$"%re.escape(mark))
    while i<len(L):
        m=pat.match(L[i])
        if not m or L[i].strip().startswith(mark+' ----') or L[i].strip().startswith('///'):
            out.append(L[i]); i+=1; continue
        ind=m.group(1); j=i
        while j<len(L):
            k=pat.match(L[j])
            if not k or k.group(1)!=ind or L[j].strip().startswith(mark+' ----'): break
            j+=1
        block=L[i:j]
        if max(len(x) for x in block)>W:
            body=' '.join(pat.match(x).group(3).strip() for x in block)
            body=re.sub(r"`[^`]*`",lambda mm:mm.group(0).replace(' ','\x00'),body)
            r=textwrap.wrap(body,W,initial_indent=ind+mark+' ',subsequent_indent=ind+mark+' ',break_long_words=False,break_on_hyphens=False)
            out+=[x.replace('\x00',' ') for x in r]
        else: out+=block
        i=j
    t='\n'.join(out)
    if t!=o: open(f,'w').write(t); return 1
    return 0
print(sum(run(f) for f in sys.argv[1:]))
