#!/usr/bin/env python3
"""Turns the function proofs of a crate from walks into invariants and answers.

usage: tools/port_proofs.py ROOT CRATE NAMES.json OLD

ROOT is the top of the repository, CRATE a crate with functions. Each proofs/F/Proof.antt of it that walks the code (it
cites the kit's walk of F) becomes proofs/F/Invariants.antt (loops and measures) and proofs/F/Answers.antt (a clause for
each goal that was answered by more than `search rules`), beside it; the walk itself is moved to
OLD/CRATE/proofs/F.

NAMES.json has, for each function, the places and goals of the walk under their old names and under those of today's
Rattle; `rt check --generated DIR --old-names`, run in the crate's folder, writes it as DIR/names.json. A chain of
`.before` is written again by today's names; lemmas of the walk's file go along. Each line that it prints names what it
could not turn. The result is read by `rt check`, which says what is left to do: some files were mended by hand after it.
The script grew while crates were turned (docs/PORT.md); this is its last state.
"""
import json,os,re,sys
if len(sys.argv) != 5:
    sys.exit(__doc__)
ROOT, C, NAMES, OLD = sys.argv[1:5]
D=json.load(open(NAMES))
B=f'{ROOT}/crates/{C}'
norm=lambda s:s.replace('-','_').lower()
W=r"[\w'₀-₉₁-₉«»-]"
PATH=re.compile(rf"(?<![\w'.₀-₉-])([A-Za-z_]{W}*)((?:\.(?:[A-Za-z_«]{W}*|\d+))+|)(?![\w₀-₉-])")

def split_items(text):
    lines=text.split('\n'); items=[]; head=[]; uses=[]; com=[]
    cur=None
    i=0
    while i<len(lines):
        l=lines[i]
        if re.match(r'(pub |unfoldable )*use ',l):
            j=i
            while '{' in '\n'.join(lines[i:j+1]) and '}' not in '\n'.join(lines[i:j+1]): j+=1
            uses.append(' '.join(x.strip() for x in lines[i:j+1])); i=j+1; cur=None; continue
        if l.startswith('--'):
            com.append(l); i+=1; cur=None if not cur else cur
            continue
        if not l.strip():
            if cur: cur['lines'].append('')
            i+=1; continue
        if l[0] not in ' \t':
            m=re.match(r"((?:abbrev |unfoldable |pub )*)(record |data |module )?([\w'·-]+)",l)
            if not m:
                if cur: cur['lines'].append(l)
                else: head.append(l)
                i+=1; continue
            name=m.group(3)
            if l.startswith('unfolding '):
                cur['lines'].append(l); i+=1; continue
            if l.startswith(')') or l.startswith('}'):
                cur['lines'].append(l); i+=1; continue
            is_sig=bool(re.match(r"((?:abbrev |unfoldable |pub )*)(record |data |module )?[\w'·-]+( [({].*)? :",l)) or m.group(2)
            if cur and cur['name']==name and not (m.group(1) or '').strip() :
                cur['lines'].append(l); i+=1; continue
            cur={'name':name,'lines':[l],'com':com,'kind':(m.group(2) or '').strip()}; com=[]
            items.append(cur); i+=1; continue
        if cur is None:
            head.append(l)
        else:
            cur['lines'].append(l)
        i+=1
    for it in items:
        while it['lines'] and not it['lines'][-1]: it['lines'].pop()
        it['text']='\n'.join(it['lines'])
        k=0
        # signature: up to first clause line "name args =" at col 0 or unfolding
        sig=[];body=[];unf=None;state='sig'
        for n,l in enumerate(it['lines']):
            if state=='sig':
                if n>0 and l.startswith('unfolding '): unf=l; state='body'; continue
                if n>0 and re.match(rf"{re.escape(it['name'])}(?![\w'-])",l): state='body'; body.append(l); continue
                sig.append(l)
            else:
                if l.startswith('unfolding ') : unf=l; continue
                body.append(l)
        it['sig']='\n'.join(sig); it['body']=body; it['unf']=unf
    return uses,items

def clause(it):
    """(params, body text) of a single clause item"""
    t='\n'.join(it['body'])
    m=re.match(rf"{re.escape(it['name'])}((?: [^=]*?)?) =(?=\s)",t,re.S)
    if not m: return None
    return m.group(1).split(), t[m.end():].strip()

def split_args(t):
    """arguments of an application at depth 0"""
    out=[];i=0;n=len(t)
    while i<n:
        if t[i].isspace(): i+=1; continue
        j=i;d=0
        while j<n and (d>0 or not t[j].isspace()):
            if t[j] in '([{': d+=1
            elif t[j] in ')]}': d-=1
            j+=1
        out.append(t[i:j]); i=j
    return out

class Fn:
    def __init__(s,d):
        s.d=d
        s.places={p[0]:p for p in d['places']}
        s.order=[p[0] for p in d['places']]
        s.norm={norm(k):k for k in s.places}
        s.idx={p[0]:i for i,p in enumerate(d['places'])}
        s.macros={}
        s.bad=[]; s.own=None; s.whole=False; s.nots=False
    def parent(s,p): return s.places[p][1] if p in s.places else None
    def up(s,p,n):
        for _ in range(n):
            p=s.parent(p) if p else None
        return p
    def arm(s,step,rest):
        best=None
        for a in s.d['arms']:
            if not a: continue
            an,_,fs=a
            for nf,os_,op in fs:
                if norm(os_)==norm(step) and op and rest[:len(op)]==op and not nf.endswith('-own'):
                    if best is None or len(op)>len(best[2]): best=(an,nf,op)
        return best
    def chain(s,p):
        out=[]
        while p is not None and p in s.places:
            out.append(p); p=s.parent(p)
        return out
    def numbered(s,callee,key,rest):
        """rest = digits after .new or .auto: the parameter's name"""
        ps=s.d['params'].get(callee)
        if not ps: return None
        k=0
        while k<len(rest) and rest[k]=='1': k+=1
        n=k; r=rest[k:]
        if r and r[0]=='0': r=r[1:]
        elif n>0 and n==len(ps): return None
        if n>=len(ps): return None
        return [ps[n]]+r
    def field(s,p,fields):
        """new path for fields at place p"""
        if not fields: return None
        x=norm(fields[0]); rest=fields[1:]
        if x.endswith('_lem') and not any(norm(s.places[y][2][0])==x for y in s.chain(p)): x=x[:-4]
        fields=[x]+rest
        if x=='good': x='well_formed'; fields=[x]+rest
        if x=='pre': fields=['requires']+rest; x='requires'
        if x=='requires' and s.own and (not rest or rest[0].isdigit()): fields=['requires',s.own]+rest
        if x in ('args','ranges','requires','lifetimes','well_formed','type_inv','utf8'):
            return ['c']+fields
        q=None
        for y in s.chain(p):
            if norm(s.places[y][2][0])==norm(x): q=y; break
        if q is None and x.startswith('loop'):
            test='test' in x
            for y in s.chain(p):
                st=s.places[y][2][0]
                if st.startswith('loop') and ('test' in st)==test: q=y; break
        if q is None:
            a=s.arm(x,rest)
            if a: return ['c',a[0],a[1]]+rest[len(a[2]):]
            s.bad.append(f'{p}: no step {x} of {[s.places[y][2][0] for y in s.chain(p)]}')
            return ['c']+fields
        a=s.arm(x,rest)
        if a: return ['c',a[0],a[1]]+rest[len(a[2]):]
        new=s.places[q][2][1]
        out=['c',new]
        callee=s.places[q][3]; cl=s.d['clauses'][s.idx[q]]
        labels=(cl or {}).get('fields') or []
        if rest and re.match(r'if|loop.*test',x) and rest[0] in ('left','taken'): rest=[{'left':'false','taken':'true'}[rest[0]]]+rest[1:]
        if rest and x.startswith('loop') and rest[0]=='inv': rest=['invariant']+rest[1:]
        if rest and new.startswith('if-not-') and rest[0] in ('true','false') and s.places[q][2][0].startswith('if'):
            s.nots=True
            return '(not_from_'+{'true':'false','false':'true'}[rest[0]]+' _ '+'.'.join(out+rest)+')'
        if rest and rest[0]=='kept': rest=['auto']+rest[1:]
        if rest and rest[0] in ('new','auto') and callee and len(rest)>1 and rest[1].isdigit():
            r=s.numbered(callee,rest[0],rest[1:])
            if r: return out+[rest[0]]+r
        if rest and rest[0]=='ensures' and labels:
            r=rest[1:]
            if len(labels)==1: return out+['ensures',labels[0]]+r
            if not r:
                s.whole=True
                return out+['ensures']
            if r[0].isdigit():
                k=int(r[0]); n=len(labels)
                if k<n: return out+['ensures',labels[k]]+r[1:]
                return out+['ensures',labels[n-1],str(k-n+1)]+r[1:]
        return out+rest
    def alias(s,expr,env):
        """(root, fields) of a pure path, or None"""
        e=' '.join(expr.split())
        if e.startswith('('):
            d=0
            for j,ch in enumerate(e):
                d+=(ch=='(')-(ch==')')
                if d==0: break
            inner=s.alias(e[1:j],env); rest=e[j+1:]
            if inner is None or (rest and not re.fullmatch(rf'(\.({W}+))+',rest)): return None
            return inner[0],inner[1]+[x for x in rest.split('.') if x and x!='before']
        m=re.fullmatch(rf"({W}+)((?:\.{W}+)*)",e)
        if m and m.group(1) in env:
            r=env[m.group(1)]
            return r[0],r[1]+[x for x in m.group(2).split('.') if x and x!='before']
        m=re.match(rf"({W}+) (\S+|\(.*\)(\.{W}+)*)$",e)
        if m and m.group(1) in s.macros: return s.alias(m.group(2),env)
        return None
    def turn(s,t,root):
        env={k:(v,[]) if isinstance(v,str) else v for k,v in root.items()}
        while True:
            hit=False
            for m in re.finditer(rf"let ({W}+) =\s*((?:(?!\blet\b|\sin\s).)*?)\s+in(?=\s)",t,re.S):
                p=s.alias(m.group(2),env)
                if p is not None:
                    env[m.group(1)]=p
                    t=t[:m.start()]+t[m.end():].lstrip()
                    hit=True; break
            if not hit: break
        if s.macros:
            names='|'.join(map(re.escape,sorted(s.macros,key=len,reverse=True)))
            for _ in range(5):
                def inl(m):
                    p=s.alias(m.group(1)+' '+m.group(2),env)
                    if p is None: return m.group(0)
                    nm=f'at__{len(env)}'; env[nm]=p
                    return nm+(m.group(3) or '')
                t2=re.sub(rf"\(({names}) ([\w.'₀-₉-]+|\([^()]*\)[\w.'-]*)\)((?:\.{W}+)*)",inl,t)
                if t2==t: break
                t=t2
        def rep(m):
            v,path=m.group(1),m.group(2)
            if v not in env: return m.group(0)
            r=env[v]
            fs=r[1]+[x for x in path.split('.') if x and x!='before']
            if not fs:
                s.bad.append('bare '+m.group(0)); return 'c'
            r=s.field(r[0],fs)
            return r if isinstance(r,str) else '.'.join(r)
        return PATH.sub(rep,t)

def wrap(labels,body):
    if not labels: return body
    if len(labels)==1: return 'record { '+labels[0]+' = ('+body+') }'
    # peel lets
    pre='';b=body.strip()
    while b.startswith('let '):
        # find matching ' in '
        d=0;k=0;i=0;depth=0
        m=None
        for mm in re.finditer(r'\blet\b|\bin\b|[()\[\]{}]',b):
            tk=mm.group(0)
            if tk in '([{': depth+=1
            elif tk in ')]}': depth-=1
            elif depth==0 and tk=='let': k+=1
            elif depth==0 and tk=='in':
                k-=1
                if k==0: m=mm; break
        if not m: break
        pre+=b[:m.end()]+' '; b=b[m.end():].strip()
    if b.startswith('(') and b.endswith(')'):
        inner=b[1:-1]; parts=[];d=0;cur=''
        ok=True
        dd=0
        for ch in inner:
            if ch in '([{': dd+=1
            if ch in ')]}':
                dd-=1
                if dd<0: ok=False
            if ch==',' and dd==0: parts.append(cur);cur=''
            else: cur+=ch
        if cur.strip(): parts.append(cur)
        if ok and len(parts)>=len(labels):
            n=len(labels)
            fs=parts[:n-1]+[','.join(parts[n-1:])]
            last=fs[-1].strip()
            if len(parts)>n: last='('+last+')'
            fs[-1]=last
            return pre+'record { '+'; '.join(f'{l} = ({f.strip()})' for l,f in zip(labels,fs))+' }'
    if re.match(r'(search|omega|grind|simp|rw)\b',b): return pre+'record { '+'; '.join(f'{l} = {b}' for l in labels)+' }'
    return pre+'let whole = '+b+' in record { '+'; '.join(f'{l} = whole.{i}' for i,l in enumerate(labels))+' }'

def one(path,key):
    d=D[key]; f=Fn(d)
    fname=os.path.basename(os.path.dirname(path))
    for r_,_,fs_ in os.walk(f'{B}/src'):
        for z in fs_:
            if z.endswith('.rt'):
                m_=re.search(rf'fn {re.escape(fname)}\b[^{{]*?requires ([a-z_]+) \{{',open(f'{r_}/{z}').read())
                if m_: f.own=m_.group(1)
    text=open(path).read()
    uses,items=split_items(text)
    by={it['name']:it for it in items}
    fold=os.path.dirname(path)
    mods=os.path.relpath(fold,f'{B}/proofs').replace('/','.')
    invs=[];goals={};helpers=[];final=None;probs=[]
    for it in items:
        sig=it['sig']
        if re.search(r'(→|:)\s*statement M',sig): final=it; continue
        m=re.search(r': tie\.((?:invariant|decreases)-\S+)',sig)
        if m: invs.append((it,m.group(1))); continue
        m=re.search(r': tie\.Need-(\S+)',sig)
        if m and '→' not in sig.split('tie.Need-')[0].split(' : ',1)[-1]: goals[norm(m.group(1))]=it; it['need']=m.group(1); continue
        m=re.search(r':\s*tie\.[^→]* →\s*tie\.[^→]*$',sig)
        if m:
            cl=clause(it)
            if cl and len(cl[0])==1:
                f.macros[it['name']]=(cl[0][0],cl[1]); continue
        helpers.append(it)
    loops=d['loops']; changed=d['changed']
    # invariants
    inv_out=[]
    usedh=set()
    def inv_name(old):
        kind,rest=old.split('-',1)
        for (o,n),vs in loops:
            if norm(o)==norm(rest): return f'{kind}-{n}',vs,changed[[x[0][0] for x in loops].index(o)]
        return None
    for it,old in invs:
        r=inv_name(old)
        cl=clause(it)
        if not r or cl is None: probs.append(f'invariant {old}'); continue
        new,vs,ch=r; params,body=cl
        params=[p for p in params if not re.fullmatch(r't\d+',p)]
        want=list(vs)+[v for v,x in zip(vs,ch) if x]
        if len(params)!=len(want):
            probs.append(f'{old}: {len(params)} arguments, {len(want)} wanted: {params} / {want}')
        mp={}
        for j,p in enumerate(params):
            if p=='_' : continue
            if j<len(vs): mp[p]=f'l.initial.{vs[j]}' if ch[j] else f'l.{vs[j]}'
            elif j<len(want): mp[p]=f'l.{want[j]}'
        b=PATH.sub(lambda m: mp[m.group(1)]+m.group(2) if m.group(1) in mp else m.group(0),body)
        inv_out.append((it,new,b))
        for h in helpers:
            if re.search(rf"(?<![\w'-]){re.escape(h['name'])}(?![\w'-])",body): usedh.add(h['name'])
    grow=True
    while grow:
        grow=False
        for h in helpers:
            if h['name'] in usedh:
                for g in helpers:
                    if g['name'] not in usedh and re.search(rf"(?<![\w'-]){re.escape(g['name'])}(?![\w'-])",h['text']): usedh.add(g['name']); grow=True
    # positional
    ans=[]
    args=[]
    if final:
        t='\n'.join(final['body'])
        m=re.search(r'tie\.spec\b',t)
        if m:
            # inside the parentheses
            d_=0; rest=t[m.end():]
            out='';dep=0
            for ch_ in rest:
                if ch_ in '([{': dep+=1
                if ch_ in ')]}':
                    dep-=1
                    if dep<0: break
                out+=ch_
            args=split_args(out)
    ninv=2*len(loops)
    invnames={it['name'] for it,_ in invs}
    pos=[a for a in args if a not in invnames]
    needs=d['needs']; asked_at=d['asked_at']
    done=set()
    if len(pos)!=len(needs): probs.append(f'{len(pos)} positional, {len(needs)} needs')
    def emit(i,params,body,unf,com=()):
        old,new=needs[i]
        b=re.sub(r'\s+',' ',body.strip())
        if b in ('search rules','search (rules)','search needs') and (not unf or re.match(r'(overflow|bounds|nonzero|shape|slice_bounds|offset|enum_|shared_|slice_|mul-|add-|sub-|cast-)',new)): done.add(i); return
        c=params[0] if params else None
        extra=[p for p in params[1:]]
        if c and c!='_' and c!='c':
            env={c:asked_at[i][0]}
        else: env={'c':asked_at[i][0]}
        f.whole=False
        body=f.turn(body,env)
        extra=[x for x in extra if x!='κs']
        if extra: body='λ '+' '.join(extra)+'. '+body; extra=[]
        labels=d['asked'].get(old) or []
        if not (f.whole and len(labels)>1): body=wrap(labels,body)
        f.whole=False
        ans.append((i,new,unf,body,com)); done.add(i)
        if extra and any(re.search(rf"(?<![\w'-]){re.escape(x)}(?![\w'-])",body) for x in extra): probs.append(f'{new}: uses {extra}')
    byold={norm(o):i for i,(o,n) in enumerate(needs)}
    for k,it in goals.items():
        if k in byold:
            cl=clause(it)
            if cl is None: probs.append(f'goal {k}: no single clause'); continue
            emit(byold[k],cl[0],cl[1],it['unf'],it['com'])
        else:
            # by position?
            if len(pos)==len(needs) and it['name'] in pos:
                cl=clause(it)
                if cl: emit(pos.index(it['name']),cl[0],cl[1],it['unf'],it['com'])
            else: probs.append(f'goal {k} unknown')
    if len(pos)==len(needs):
        for i,a in enumerate(pos):
            if i in done: continue
            m=re.match(r'\(λ ([^.]*?)\. (.*)\)$',a,re.S)
            if m: emit(i,m.group(1).split(),m.group(2),final['unf'])
            elif a in by: 
                if re.search(r'tie\.',by[a]['sig']):
                    cl=clause(by[a])
                    if cl: emit(i,cl[0],cl[1],by[a]['unf'],by[a]['com'])
                else: emit(i,['c'],a+' c',final['unf']); probs.append(f'bare helper {a}')
            else: emit(i,['c'],a+' c',final['unf']); probs.append(f'bare {a}')
    elif pos:
        # fewer or more goals than the older kit had: an alignment in order, by which paths are there
        def lam(a):
            m=re.match(r'\(λ ([^.]*?)\. (.*)\)$',a,re.S)
            if m: return m.group(1).split(),m.group(2),final['unf'],[]
            if a in by:
                cl=clause(by[a])
                if cl: return cl[0],cl[1],by[a]['unf'],by[a]['com']
            return ['c'],a+' c',final['unf'],[]
        parts=[lam(a) for a in pos]
        def trivial(x): return re.sub(r'\s+',' ',x[1].strip()) in ('search rules','search (rules)')
        named={pos.index(it['name']):byold[norm(it['need'])] for it in goals.values() if it['name'] in pos and norm(it['need']) in byold}
        def cost(k,i):
            if k in named: return 0 if named[k]==i else 50
            x=parts[k]; old,new=needs[i]
            kap=len(x[0])>1; req=old.endswith('requires') or bool(re.search(r'requires-\d+$',old))
            c0=0 if kap==req else 4
            if trivial(x): return c0
            if not x[0]: return c0
            sv=f.bad; f.bad=[]
            try: f.turn(x[1],{x[0][0]:asked_at[i][0]})
            except Exception: f.bad.append('x')
            nb=len(f.bad); f.bad=sv
            return c0+3*nb
        INF=10**9
        n_,m_=len(parts),len(needs)
        best=[[INF]*(m_+1) for _ in range(n_+1)]; how=[[None]*(m_+1) for _ in range(n_+1)]
        best[0][0]=0
        for k in range(n_+1):
            for i in range(m_+1):
                v=best[k][i]
                if v>=INF: continue
                if k<n_:
                    w=v+(1 if trivial(parts[k]) else 40)
                    if w<best[k+1][i]: best[k+1][i]=w; how[k+1][i]='a'
                if i<m_:
                    w=v+2
                    if w<best[k][i+1]: best[k][i+1]=w; how[k][i+1]='n'
                if k<n_ and i<m_:
                    w=v+cost(k,i)
                    if w<best[k+1][i+1]: best[k+1][i+1]=w; how[k+1][i+1]='b'
        k,i=n_,m_
        al=[]
        while k or i:
            h=how[k][i]
            if h=='b': k-=1;i-=1;al.append((k,i))
            elif h=='a':
                k-=1
                if not trivial(parts[k]): probs.append('unplaced '+re.sub(r'\s+',' ',pos[k])[:200])
            else: i-=1
        for k,i in reversed(al):
            if i in done: continue
            x=parts[k]
            emit(i,x[0],x[1],x[2],x[3])
    head=[l for l in text.split('\n')[:3] if l.startswith('--')][:1]
    keep=[u for u in uses if not re.search(r'\.(Statement|Tie)(\.\{| as |$)',u)]
    base=f'Rattle.{C}.proofs.{mods}'
    if inv_out:
        o=[f'-- Invariants and measures of `{C}::{mods.replace(".","::")}`.']+keep+[f'use {base}.Given as goal','']
        for h in helpers:
            if h['name'] in usedh:
                tx=h['text']
                if not re.match(r'(abbrev |unfoldable )*pub ',tx): tx=re.sub(r'^((?:abbrev |unfoldable )*)',r'\1pub ',tx,1)
                o+=h['com']+[tx,'']
        for it,new,b in inv_out:
            o+=it['com']+[f'abbrev pub {new} : goal.{new}']
            if it['unf']: o.append(it['unf'])
            o+=[f'{new} l =\n    {b}' if '\n' in b or len(b)>110 else f'{new} l = {b}','']
        open(f'{fold}/Invariants.antt','w').write('\n'.join(o).rstrip()+'\n')
    used=[h for h in helpers if h['name'] not in usedh]
    for h in used:
        if 'tie.' in h['text']: probs.append(f'helper {h["name"]} speaks of tie')
    if ans:
        o=[f'-- Answers of `{C}::{mods.replace(".","::")}`.']+keep
        if f.nots: o.append('use Rattle.std.proofs.lemmas.Bool.{not_from_true, not_from_false}')
        imp=[n for n in usedh]
        if imp and inv_out: o.append(f'use {base}.Invariants.{{{", ".join(sorted(imp))}}}')
        o+=[f'use {base}.Goals as goal','']
        for h in used: o+=h['com']+[h['text'],'']
        for i,new,unf,body,com in sorted(ans):
            o+=list(com)+[f'pub {new} : goal.{new}']
            if unf: o.append(unf)
            o+=[f'{new} c =\n    {body}','']
        open(f'{fold}/Answers.antt','w').write('\n'.join(o).rstrip()+'\n')
    os.makedirs(f'{OLD}/{C}/{os.path.dirname(os.path.relpath(path,B))}',exist_ok=True)
    os.rename(path,f'{OLD}/{C}/{os.path.relpath(path,B)}')
    return probs+f.bad

n=0
for folder,dirs,fs in sorted(os.walk(f'{B}/proofs')):
    if 'Proof.antt' in fs:
        p=f'{folder}/Proof.antt'
        if 'tie.' not in open(p).read(): print('WALK',p); continue
        mods=os.path.relpath(folder,f'{B}/proofs').replace('/','.')
        key=f'Rattle-{C}-proofs.{mods}.Lts'
        if key not in D: print('no key',key); continue
        try: pr=one(p,key)
        except Exception as e:
            import traceback; traceback.print_exc(); print('FAIL',p,e); continue
        n+=1
        for x in pr: print(f'{mods}: {x}')
print(C,n,'turned')
