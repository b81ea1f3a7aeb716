#!/usr/bin/env python3
"""wrap.py FILE...: no line of an .antt file above 160 characters."""
import re,sys,collections
MAX=160
stats=collections.Counter()
OPS=('→','∙','≡','×','⊎','&&','++')
def breaks(l,start):
    """the spaces of l from start on with their depth"""
    d=0; out=[]
    for i,ch in enumerate(l):
        if ch in '([{': d+=1
        elif ch in ')]}': d-=1
        elif ch==' ' and i>start: out.append((i,d))
    return out
def wrap(l,declline):
    ind=len(l)-len(l.lstrip())
    s=l.strip()
    if s.startswith('--'):
        words=s[2:].split(); lines=[]; cur=' '*ind+'--'
        for w in words:
            if len(cur)+1+len(w)>120: lines.append(cur); cur=' '*ind+'--'
            cur+=' '+w
        return lines+[cur]
    m=re.match(r"((?:unfoldable )?(?:ghost )?(?:pub )?use [^{]*\{)([^}]*)\}$",s)
    if m:
        names=[n.strip() for n in m.group(2).split(',')]; lines=[]; cur=[]
        for n in names:
            if len(m.group(1)+', '.join(cur+[n])+'}')>MAX-2: lines.append(cur); cur=[]
            cur.append(n)
        lines.append(cur)
        return [' '*ind+m.group(1)+', '.join(c)+'}' for c in lines]
    if s.startswith('unfolding '):
        words=s.split()[1:]; lines=[]; cur=' '*ind+'unfolding'
        for w in words:
            if len(cur)+1+len(w)>MAX-2: lines.append(cur); cur=' '*(ind+3)
            cur+=' '+w
        return lines+[cur]
    # an equation: the body on a line of its own
    if declline:
        m=re.match(r"^(\s*(?:\S+)(?: [^=]*?)?) = (.*)$",l)
        depth=0
        if m and ' : ' not in m.group(1) and m.group(1).count('(')==m.group(1).count(')'):
            return [m.group(1)+' =',' '*(ind+4)+m.group(2)]
    cont=ind+4 if declline or ind<4 or re.match(r"(let |[\w-]+ = )",s) else ind
    cand=[(i,d) for i,d in breaks(l,ind+8) if i<=MAX]
    cand=[(i,d) for i,d in cand if i>=ind+30] or cand
    if not cand: stats['stuck']+=1; return [l]
    low=min(d for i,d in cand)
    best=[(i,d) for i,d in cand if d==low]
    rank=lambda i:next((r for r,o in enumerate((('→',),('×','⊎'),('≡',),('∙','++','&&'))) if l[i+1:].startswith(o)),4)
    far=[i for i,d in best if i>=max(60,ind+40)] or [i for i,d in best]
    r=min(map(rank,far)); i=[x for x in far if rank(x)==r][-1]
    # never break after a binder's dot name or before `.field`
    while l[i+1:i+2]=='.' and [x for x,_ in best if x<i]: i=[x for x,_ in best if x<i][-1]
    if l[i+1:i+2]=='.':
        alt=[x for x,d in cand if l[x+1:x+2]!='.']
        if not alt: stats['stuck']+=1; return [l]
        low=min(d for x,d in cand if l[x+1:x+2]!='.'); i=[x for x,d in cand if d==low and l[x+1:x+2]!='.'][-1]
    return [l[:i].rstrip(),' '*cont+l[i+1:].strip()]
def do(f):
    t=open(f).read(); L=t.split('\n'); out=[]; prev_decl=0
    work=collections.deque((l,None) for l in L)
    changed=False; guard=0
    prev=''
    while work:
        l,c=work.popleft()
        if len(l)<=MAX: out.append(l); continue
        ind=len(l)-len(l.lstrip())
        # a declaration starts a block: previous line is blank, a comment, a use or a signature
        pl=out[-1] if out else ''
        pind=len(pl)-len(pl.lstrip())
        s=l.strip()
        decl=c is None and (s.startswith(('module ','pub module','record ','pub record','data ','pub data')) or bool(re.match(r"(pub |abbrev |unfoldable )*[^\s(]+ : ",s)) or (bool(re.match(r"[^\s(∙→≡×.][^=∙→≡λ]* = ",s)) and not s.startswith('let ') and not pl.rstrip().endswith((' in','{','(',';',',','→'))))
        parts=wrap(l,decl)
        guard+=1
        if guard>20000 or (len(parts)==1): out.append(l); continue
        changed=True
        for k,x in enumerate(reversed(parts)): work.appendleft((x,'part' if k<len(parts)-1 else None if False else 'first'))
        # the first part is done
        if len(parts[0])<=MAX: pass
    u='\n'.join(out)
    if u!=t: open(f,'w').write(u); stats['files']+=1
    stats['left']+=sum(len(l)>MAX for l in out)
for f in sys.argv[1:]: do(f)
print(dict(stats))
