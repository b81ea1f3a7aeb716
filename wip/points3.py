#!/usr/bin/env python3
"""points3.py FILE...: in a function's proof each place that is used has one name: the way from a point to the one before it is an `abbrev` of the file,
and a need says `let at-scan = compare-to-scan at-compare in`. Needs /work/gen/CRATE (rt dev CRATE --generated)."""
import re,sys,collections,glob
CH=re.compile(r"(?<![\w·.-])c((?:\s+\.before)+)(?:\s+\.([\w⁰-₟κ-]+))?")
stats=collections.Counter()
import os
SKIP={tuple(l.split()) for l in open('/work/gen/skip.txt')} if os.path.exists('/work/gen/skip.txt') else set()
DULL=re.compile(r"(slice-known|shared-slice-known|known-told|enum-told|enum-known|match|.*-arg\d*$|read-known|array-known)")
MAXLET=3   # a longer way from a need's own place is an abbrev too, where two needs have it
MAXWAY=8
def load(crate,function):
    found=[f for f in glob.glob(f"/work/gen/{crate}/**/Lts*.antt",recursive=True) if f"/{function}/" in f]
    if not found: return None
    fields,needs,record,need={},{},None,None
    for line in open(found[0]):
        if m:=re.match(r"^ +pub record (\S+) : ",line): record=m.group(1); fields[record]=[]
        elif (m:=re.match(r"^ +pub (\S+) : (.*)",line)) and record: fields[record].append((m.group(1),m.group(2).strip()))
        elif m:=re.match(r"^ +Need-(\S+)(?: .*)?=\s*(?:\(c : ([^\s)]+).*)?",line):
            record,need=None,m.group(1)
            if m.group(2): needs[need],need=m.group(2),None
        elif (m:=re.match(r"^ +\(c : ([^\s)]+)",line)) and need: needs[need],need=m.group(1),None
    up={r:next((k.split()[0] for n,k in fs if n=='before'),None) for r,fs in fields.items()}
    return up,needs
def label(r):
    if r=='Start': return 'start'
    if re.match(r"After-loop\d*$",r): return 'after-'+r[6:]
    if r.startswith('After-'): return r[6:]
    if r.startswith('At-'): return r[3:]
    if r.startswith('In-'): return 'in-'+r[3:]
    return r[0].lower()+r[1:]
def variable(r):
    l=label(r)
    return l if l.startswith(('in-','after-')) else 'at-'+l
def close(t,i):
    d=0
    while i<len(t):
        ch=t[i]
        if ch in '([{': d+=1
        elif ch in ')]}':
            if d==0: return i
            d-=1
        elif ch==',' and d==0: return i
        i+=1
    return i
def path(up,r):
    out=[]
    while r in up: out.append(r); r=up[r]
    return out
def topo(ways,depth):
    """simple ways first where a composed one needs them; otherwise from the start on"""
    done=set(); out=[]
    name=lambda r,q:'%s-to-%s'%(label(r),label(q))
    items=sorted(ways.items(),key=lambda x:(depth[x[0][1]],depth[x[0][0]]))
    while items:
        for it in items:
            (r,q),d=it
            if isinstance(d,str) or all(p in done for p in d): break
        items.remove(it); out.append(it); done.add(name(*it[0]))
    return out
def split_inner(t):
    out='';i=0;inner=[]
    for m in re.finditer(r"λ ((?:[\w⁰-₟κ]+ )*?c(?: [\w⁰-₟κ]+)*)\. ?",t):
        if m.start()<i: continue
        e=close(t,m.end()); out+=t[i:m.end()]+'\x00%d\x00'%len(inner); inner.append(t[m.end():e]); i=e
    return out+t[i:],inner
def spec_args(t):
    """the arguments of tie.spec, in order"""
    m=re.search(r"tie\.spec(-\S+)?",t)
    return None
def args_of(t):
    """the arguments of tie.spec in t, in order: start and end of each"""
    m=re.search(r"tie\.spec",t)
    if not m: return []
    i=m.end(); out=[]
    while i<len(t):
        if t[i].isspace(): i+=1; continue
        if t[i] in ')]}': break
        j=i
        if t[i]=='(': 
            d=0
            while True:
                if t[j] in '([{': d+=1
                elif t[j] in ')]}':
                    d-=1
                    if d==0: j+=1; break
                j+=1
        else:
            while j<len(t) and not t[j].isspace() and t[j] not in ')]}': j+=1
        out.append((i,j)); i=j
    return out
def lift(body,outer,inner,order,up,needs,work):
    """inner lambdas that are arguments of tie.spec: their places are known"""
    args=[a for a in args_of(body) if not re.match(r"(Inv-|μ-)",body[a[0]:a[1]])]
    if len(args)!=len(order): stats['spec-order %d %d'%(len(args),len(order))]+=1; return inner
    spans=[]
    for m in re.finditer(r"λ ((?:[\w⁰-₟κ]+ )*?c(?: [\w⁰-₟κ]+)*)\. ?",body):
        if spans and m.start()<spans[-1][1]: continue
        e=close(body,m.end()); spans.append((m.start(),e))
    out=[]
    for (a,b),x in zip(spans,inner):
        k=next((i for i,(p,q) in enumerate(args) if p<=a and b<=q),None)
        x0=x; forced={}
        while True:
            mm=re.search(r"let ([\w-]+) = (c(?:\s+\.before)+) in\s*",x)
            if not mm: break
            forced.setdefault(mm.group(2).count('.before'),mm.group(1))
            x=re.sub(r"(?<![\w.·-])%s(?![\w-])"%re.escape(mm.group(1)),re.sub(r"\s+"," ",mm.group(2)),x[:mm.start()]+x[mm.end():])
        ks=collections.Counter(m.group(1).count('.before') for m in CH.finditer(x))
        for q in forced: ks[q]+=2
        if k is None or not ks or max(ks)<4 or 'λ c' in x: out.append(x0); continue
        place=needs[order[k]]
        out.append({'text':x,'P':path(up,place),'uses':ks,'forced':forced})
    return out
def place_lets(lets,body):
    names=[re.match(r"let (\S+) =",l).group(1) for l in lets]
    b=body.strip()
    if b.startswith('(') and close(b,1)!=1:
        # a tuple: its parts
        parts=[];i=1
        while i<len(b):
            d=0;j=i
            while j<len(b):
                if b[j] in '([{': d+=1
                elif b[j] in ')]}':
                    if d==0: break
                    d-=1
                elif b[j]==',' and d==0: break
                j+=1
            parts.append((i,j)); i=j+1
            if j<len(b) and b[j]==')': break
        if j==len(b)-1 and len(parts)>1:
            use=[k for k,(p,q) in enumerate(parts) if any(re.search(r"(?<![\w-])%s(?![\w-])"%re.escape(n),b[p:q]) for n in names)]
            if len(use)==1:
                p,q=parts[use[0]]
                part=b[p:q].strip()
                inner=' '.join(lets)+' '+part
                return ' '+b[:p]+(' ' if b[p-1]==',' else '')+inner+b[q:] if len(inner)<120 else '\n    '+b[:p]+'\n'+''.join('      '+l+'\n' for l in lets)+'      '+part+b[q:]
    return '\n'+''.join('    '+l+'\n' for l in lets)+'    '+body.lstrip()
def do(f):
    t=open(f).read()
    if '.before' not in t: return
    p=f.split('/'); gen=load(p[1],p[-2])
    if not gen: stats['nogen']+=1; return
    up,needs=gen
    L=t.split('\n'); blocks=[]; cur=[]
    for l in L:
        if l and not l[0].isspace() and cur: blocks.append('\n'.join(cur)); cur=[l]
        else: cur.append(l)
    blocks.append('\n'.join(cur))
    sig={}; work=[]; force={}
    order=list(needs)
    for i,b in enumerate(blocks):
        tail=re.search(r"\n*$",b).group(0); core=b[:len(b)-len(tail)]
        if m:=re.match(r"(?:abbrev )?(\S+) : tie\.Need-(\S+)",core): sig[m.group(1)]=needs.get(m.group(2))
        elif m:=re.match(r"(?:abbrev )?(\S+) : .*?\(c : (?:tie|lts)\.(\S+)\)",core): sig[m.group(1)]=m.group(2)
        m=re.match(r"(\S+(?: [^=\n]*?)?) =(?=\s)",core)
        if not m or ' : ' in m.group(1): continue
        lhs,body=m.group(1),core[m.end():]
        name=lhs.split()[0]
        if '.before' not in body or (f,name) in SKIP: continue
        if re.search(r"\brw\b[^;]*\bat \(",body): stats['rw at']+=1; continue
        has=re.search(r"(?<![\w·.-])c(?![\w-])",lhs)
        if re.search(r"^\s+where\b",body,re.M): stats['where']+=1; continue
        outer,inner=split_inner(body)
        if any('.before' in x for x in inner):
            inner=lift(body,outer,inner,order,up,needs,work)
        if not has:
            if any(isinstance(x,dict) for x in inner): work.append((i,lhs,tail,outer,inner,None,None))
            continue
        place=sig.get(name)
        if place is None or place not in up: stats['noplace']+=1; continue
        P=path(up,place)
        # names that are there already
        forced={}
        while True:
            mm=re.search(r"let ([\w-]+) = (c(?:\s+\.before)+) in\s*",outer)
            if not mm: break
            forced.setdefault(mm.group(2).count('.before'),mm.group(1))
            rest=outer[:mm.start()]+outer[mm.end():]
            outer=re.sub(r"(?<![\w.·-])%s(?![\w-])"%re.escape(mm.group(1)),re.sub(r"\s+"," ",mm.group(2)),rest)
        uses=collections.Counter(m2.group(1).count('.before') for m2 in CH.finditer(outer))
        for k in forced: uses[k]+=2
        if not uses: continue
        if max(uses)>=len(P): stats['off']+=1; continue
        work.append((i,lhs,tail,outer,inner,P,uses)); force[i]=forced
    if not work: return
    # the points of the file
    named=set()
    for *_,inner,P,uses in work:
        if P: named|={P[k] for k in uses if k>=3 or (k>=2 and uses[k]>=2) or k in force.get(_[0],{})}
        for x in inner:
            if isinstance(x,dict): named|={x['P'][k] for k in x['uses'] if k>=3 or (k>=2 and x['uses'][k]>=2)}
    def nearest(r,among=None):
        d=1;q=up.get(r)
        while q is not None and q in up:
            if q in named: return q,d
            q=up[q];d+=1
        return None,None
    ways={}
    def define(r,q,d):
        n='%s-to-%s'%(label(r),label(q))
        if (r,q) in ways: return n
        if d<=MAXWAY: ways[(r,q)]=' .before'*d; return n
        Q=path(up,r); parts=-(-d//MAXWAY); size=-(-d//parts)
        cand=[j for j in range(min(MAXWAY,d-2),1,-1)]
        cand.sort(key=lambda j:(bool(DULL.match(label(Q[j]))),abs(j-size)))
        j=cand[0]
        first=define(r,Q[j],j); second=define(Q[j],q,d-j)
        ways[(r,q)]=(second,first)
        return n
    own=collections.Counter()
    for *_,inner,P,uses in work:
        for R in ([P] if P else [])+[x['P'] for x in inner if isinstance(x,dict)]:
            q,d=nearest(R[0])
            if q is not None: own[(R[0],q)]+=1
    def atom(e): return e if re.match(r"[\w-]+$",e) else '('+e+')'
    def stem(e): return e if re.match(r"[\w-]+(?: \.before)*$",e) else '('+e+')'
    def named_body(text,P,uses,forced={}):
        """lets, and the text by their names"""
        top=max(uses); lets=[]; at={0:'c'}; r=P[0]; e='c'; k=0
        while True:
            q,d=nearest(r)
            if q is None or k+d>top: break
            if d<=2 or (k==0 and r not in named and d<=MAXWAY and (own[(r,q)]<2 or d<=MAXLET)): e2=stem(e)+' .before'*d
            else: e2=define(r,q,d)+' '+atom(e)
            k+=d; r=q
            q2,d2=nearest(q)
            here=sum(n for x,n in uses.items() if k<=x<(k+d2 if d2 else 10**9))
            direct=re.match(r"(?:%s)(?: \.before){1,3}$"%'|'.join(map(re.escape,at.values())),e2)
            if k not in forced and here==1 and direct and max(x for x in uses if k<=x<(k+d2 if d2 else 10**9))-max(at)<=3: e=e2
            elif here:
                v=forced.get(k) or variable(q)
                while v in at.values(): v+='-2'
                lets.append('let %s = %s in'%(v,e2)); at[k]=v; e=v
            else: e=e2
        def rep(m):
            k=m.group(1).count('.before'); b=max(x for x in at if x<=k)
            if k-b>8: stats['long']+=1
            return at[b]+' .before'*(k-b)+(' .'+m.group(2) if m.group(2) is not None else '')
        text=CH.sub(rep,text)
        for v in at.values(): text=re.sub(r"\(%s\)"%re.escape(v),v,text) if v!='c' else text
        return lets,text
    new={}
    for i,lhs,tail,outer,inner,P,uses in work:
        ins=[]
        for x in inner:
            if isinstance(x,dict):
                lets,text=named_body(x['text'],x['P'],x['uses'],x['forced']); ins.append('\x01'+' '.join(lets+[text.lstrip()]))
            else: ins.append(x)
        if P:
            lets,body=named_body(outer,P,uses,force.get(i,{}))
        else: lets,body=[],outer
        body=re.sub('\x00(\\d+)\x00',lambda m:ins[int(m.group(1))],body)
        body=re.sub(r'\.\x01','. ',body).replace('\x01','')
        if lets: body=place_lets(lets,body)
        elif not body.startswith((' ','\n')): body=' '+body
        new[i]=lhs+' ='+body+tail
    args=' Inv-loop μ-loop' if re.search(r'^(?:abbrev )?Inv-loop ',t,re.M) else ''
    typed=lambda r:'tie.'+r+args
    out=[new.get(i,b) for i,b in enumerate(blocks)]
    if ways:
        text='-- the points that the proof uses, each by the way from the one after it\n'
        depth={r:len(path(up,r)) for r in up}
        for (r,q),d in sorted(ways.items(),key=lambda x:(isinstance(x[1],tuple),depth[x[0][1]],depth[x[0][0]])) if not any(isinstance(d,tuple) for d in ways.values()) else topo(ways,depth):
            n='%s-to-%s'%(label(r),label(q))
            text+='abbrev %s : %s → %s\n%s at = %s\n\n'%(n,typed(r),typed(q),n,'at'+d if isinstance(d,str) else '%s (%s at)'%d)
        j=min(new)
        while not re.match(r'(?:pub )?'+re.escape(new[min(new)].split()[0])+' ',blocks[j]) or '= ' in blocks[j].split('\n')[0] or blocks[j].split('\n')[0].endswith(' ='): j-=1
        while j>0 and blocks[j-1].startswith('--'): j-=1
        for x,b in enumerate(blocks):
            if re.match(r"(Inv-loop|μ-loop) ",b): j=max(j,x+1)
        out.insert(j,text.rstrip('\n')+'\n')
    u='\n'.join(out)
    if u!=t: open(f,'w').write(u); stats['files']+=1
for f in sys.argv[1:]: do(f)
print(dict(stats))
