#!/usr/bin/env python3
"""rename.py TABLE: renames definitions of specs (and laws) in crates/: each line of TABLE: CRATE/MODULE OLD NEW.
Only files that define the name or import it from that module (or from one that hands it on) are touched. Comments: only `old` in backticks.
Line 'all OLD NEW' renames the token in every file of crates."""
import re,subprocess,sys,os,collections
W="A-Za-z0-9_′″'\\-₀-₉α-ωΑ-Ωℓ"
root=os.getcwd()
files=[f for f in subprocess.run("git ls-files crates",shell=True,capture_output=True,text=True).stdout.split() if f.endswith(('.antt','.rt','.edit'))]
text={f:open(f).read() for f in files}
USE=re.compile(r"^(?:[a-z ]*\b)?use\s+([^\s;{]+?)\.?\{([^}]*)\};?",re.M)
def modname(path):
    # crates/X/specs/A.antt -> ('X','specs.A')
    p=path.split('/')
    return p[1], '.'.join(p[2:])[:-5].replace('/','.')
def imports(t):
    for m in USE.finditer(t):
        yield m.group(1), [x.strip() for x in m.group(2).split(',')]
def norm(path,crate):
    m=re.match(r"Rattle·([a-z_0-9]+)(?:·specs|·laws|·proofs)?\.(.*)$",path)
    if not m: return None
    return m.group(1), m.group(2)
IMPS={}
for f,t in text.items():
    if f.endswith('.edit'): continue
    IMPS[f]=[(norm(p,f.split('/')[1]),names,'pub use' in '') for p,names in imports(t)]
PUBUSE=re.compile(r"^(?:unfoldable )?pub use\s+([^\s{]+?)\.?\{([^}]*)\}",re.M)
def exporters(crate,module,old):
    out={(crate,module)}
    grew=True
    while grew:
        grew=False
        for f,t in text.items():
            if not f.endswith('.antt'): continue
            for m in PUBUSE.finditer(t):
                k=norm(m.group(1),'')
                if k in out:
                    for x in m.group(2).split(','):
                        x=x.strip()
                        if x==old:
                            me=modname(f)
                            if me not in out: out.add(me); grew=True
    return out
def split_comments(f,t):
    mark='--' if f.endswith('.antt') else '//'
    for line in t.split('\n'):
        if f.endswith('.antt'):
            m=re.search(r"(^|\s)--(\s|$)",line)
            i=m.start()+ (1 if m and m.group(1) else 0) if m else -1
        else:
            i=line.find('//')
        yield (line if i<0 else line[:i]), ('' if i<0 else line[i:])
def sub(f,t,old,new):
    pat=re.compile(r"(?<![%s.])%s(?![%s])"%(W,re.escape(old),W))
    pathpat=re.compile(r"(\.specs\.[A-Za-z.]+\.\{?)%s(?![%s])"%(re.escape(old),W))
    tick=re.compile(r"`%s(?![%s])"%(re.escape(old),W))
    out=[];n=0
    for code,com in split_comments(f,t):
        c2,k=pat.subn(new,code); n+=k
        m2,k=tick.subn("`"+new,com); n+=k
        out.append(c2+m2)
    return '\n'.join(out),n
changed=collections.Counter()
for line in open(sys.argv[1]):
    line=line.split('#')[0].split()
    if not line: continue
    where,old,new=line
    if where=='all':
        scope=[f for f in text if not f.endswith('.edit')]
    else:
        crate,module=where.split('/',1)
        ex=exporters(crate,module,old)
        scope=[]
        for f in text:
            if f.endswith('.edit'): continue
            if f.endswith('.antt') and modname(f) in ex: scope.append(f); continue
            for p,names in imports(text[f]):
                k=norm(p,'')
                if k in ex and any(re.split(r"\s+as\s+",x)[0].strip()==old for x in names): scope.append(f);break
        if not any(modname(f)==(crate,module) for f in scope if f.endswith('.antt')):
            print("!! no defining file for",where,old)
    total=0
    for f in scope:
        pat=re.compile(r"(?<![%s.])%s(?![%s])"%(W,re.escape(new),W))
        t2,n=sub(f,text[f],old,new)
        if n and pat.search(text[f]): print("!! %s already in %s (for %s)"%(new,f,old))
        text[f]=t2; total+=n
    # edits whose target is in scope
    sc=set(scope)
    for f in text:
        if not f.endswith('.edit'): continue
        base=f.split('/must-fail')[0]; cur=None; lines=[];n=0
        for l in text[f].split('\n'):
            if l.startswith('file: '): cur=os.path.normpath(os.path.join(base,l[6:].strip()))
            if (l.startswith('old:') or l.startswith('new:')) and cur in sc:
                l2,k=sub(cur,l,old,new); n+=k; l=l2
            lines.append(l)
        text[f]='\n'.join(lines); total+=n
    print(where,old,'->',new,len(scope),'files',total)
for f,t in text.items():
    if open(f).read()!=t: open(f,'w').write(t)
