import re,subprocess,sys
moves={}
def mv(crate,src,dst,names,ren={}):
    for n in names.split(): moves[(crate,src,n)]=(crate if not isinstance(dst,tuple) else dst[0],dst if not isinstance(dst,tuple) else dst[1],ren.get(n,n))
exec(open(sys.argv[1]).read())
files=[f for f in subprocess.run("git ls-files crates; git ls-files -o --exclude-standard crates",shell=True,capture_output=True,text=True).stdout.split() if f.endswith(('.antt','.rt'))]
USE=re.compile(r"^((?:ghost |unfoldable |pub )*use )Rattle·([a-z_0-9]+)(·specs)?\.((?:specs\.)?)(?:specs\.)?([A-Za-z]+)\.\{([^}]*)\}(;?)\s*$")
W="A-Za-z0-9_′'\\-"
for f in files:
    try: t=open(f).read()
    except FileNotFoundError: continue
    me=f.split('/')[1]; lines=t.split('\n'); out=[]; add={}; ren={}
    ch=False
    for l in lines:
        m=re.match(r"^((?:ghost |unfoldable |pub )*use )Rattle·([a-z_0-9]+?)(·specs)?\.specs\.(?:specs\.)?([A-Z][A-Za-z]*)\.\{([^}]*)\}(;?)\s*$",l) or re.match(r"^((?:ghost |unfoldable |pub )*use )Rattle·([a-z_0-9]+?)(·specs)\.specs\.([A-Z][A-Za-z]*)\.\{([^}]*)\}(;?)\s*$",l)
        if m:
            kw,crate,own,mod,names,semi=m.groups()
            keep=[]
            for n in [x.strip() for x in names.split(',')]:
                base=n.split(' as ')[0].strip()
                k=(crate,mod,base)
                if k in moves:
                    c2,m2,n2=moves[k]; ch=True
                    if n2=='-': continue
                    add.setdefault((kw,c2,own if c2==crate else ('·specs' if c2==me and '/specs/' in f else ''),m2,semi),[])
                    L=add[(kw,c2,own if c2==crate else ('·specs' if c2==me and '/specs/' in f else ''),m2,semi)]
                    nn=n.replace(base,n2,1)
                    if nn not in L: L.append(nn)
                    if n2!=base: ren[base]=n2
                else: keep.append(n)
            if keep:
                out.append(l if len(keep)==len(names.split(',')) else f"{kw}Rattle·{crate}{own or ''}.specs.{mod}.{{{', '.join(keep)}}}{semi}")
            out.append(('MARK',)) if any((crate,mod,n.split(' as ')[0].strip()) in moves for n in names.split(',')) else None
            continue
        out.append(l)
    if not ch: continue
    # merge into existing or insert at first mark
    res=[];done=False
    final=[x for x in out]
    for key,L in list(add.items()):
        kw,c2,own,m2,semi=key
        for i,x in enumerate(final):
            if isinstance(x,str):
                m=re.match(re.escape(kw)+r"Rattle·"+re.escape(c2)+r"(·specs)?\.specs\.(specs\.)?"+m2+r"\.\{([^}]*)\}",x)
                if m:
                    names=[y.strip() for y in m.group(3).split(',')]
                    for n in L:
                        if n not in names: names.append(n)
                    final[i]=x[:x.index('{')+1]+', '.join(names)+'}'+semi
                    del add[key]; break
    for x in final:
        if isinstance(x,tuple):
            if not done:
                for (kw,c2,own,m2,semi),L in add.items():
                    res.append(f"{kw}Rattle·{c2}{own or ''}.specs.{m2}.{{{', '.join(L)}}}{semi}")
                done=True
        else: res.append(x)
    t='\n'.join(res)
    for a,b in ren.items():
        t=re.sub(r"(?<![%s.])%s(?![%s])"%(W,re.escape(a),W),b,t)
    open(f,'w').write(t)
    print(f)
