#!/usr/bin/env python3
"""fiximports.py CRATE: rt dev CRATE, adds missing imports, again; prints the errors that are left (RT_CUT long)."""
import re,subprocess,sys,os,collections
crate=sys.argv[1]; words=sys.argv[2:]
MAP={'Lists':'Rattle·index.specs.Index','indexOf':'Rattle·index.specs.Index','Index':'Rattle·index.specs.Index','withCounts':'Rattle·index.specs.Index','CallResult':'Rattle·calls.specs.Result','ReadResult':'Rattle·calls.specs.Result','unchanged':'Rattle·calls.specs.Result'}
ABOVE={'Lists':'Rattle·interface.specs.Set','indexOf':'Rattle·interface.specs.Set','Index':'Rattle·interface.specs.Set','CallResult':'Rattle·interface.specs.Set','ReadResult':'Rattle·interface.specs.Set'}
lines=[l.split(':') for l in open('crates.txt') if ':' in l and not l.startswith('#')]
uses={a:b.split() for a,b in lines}
above='interface' in uses.get(crate,[]) or 'orderset' in uses.get(crate,[])
for turn in range(6):
    r=subprocess.run(['rtq','dev',crate]+words,capture_output=True,text=True,env=dict(os.environ,RT_CUT='3000'))
    out=r.stdout+r.stderr
    need=collections.defaultdict(set)
    for m in re.finditer(r"^(/\S+?):(\d+):(\d+): error: (.*)$",out,re.M):
        f,l,c,msg=m.groups()
        k=re.search(r"`([^`]+)` is not in scope",msg)
        if k:
            n=k.group(1)
            s=re.search(r"add `use ([^`]*?)\.\{"+re.escape(n)+r"\}`",msg)
            mod=None
            if n in MAP:
                mod=(ABOVE if above and n in ABOVE else MAP)[n]
                own=re.match(r"Rattle·(\w+)\.specs\.(.*)",mod)
                if own and own.group(1)==crate: mod=f"Rattle·{crate}·specs.specs.{own.group(2)}"
            elif s and 'did you mean' not in msg.split('add `use')[0]: mod=s.group(1)
            if mod: need[f].add((mod,n))
    if not need: break
    for f,S in need.items():
        t=open(f).read(); rt=f.endswith('.rt')
        for mod,n in S:
            pat=re.compile(r"^((?:ghost )?use "+re.escape(mod)+r"\.\{)([^}]*)(\};?)",re.M)
            m=pat.search(t)
            if m:
                if n in [x.strip() for x in m.group(2).split(',')]: continue
                t=t[:m.start()]+m.group(1)+m.group(2)+', '+n+m.group(3)+t[m.end():]
            else:
                ms=list(re.finditer(r"^(?:ghost )?use .*$",t,re.M))
                last=[x for x in ms if (not rt or x.group(0).startswith('ghost'))][-1]
                t=t[:last.end()]+("\nghost use %s.{%s};" if rt else "\nuse %s.{%s}")%(mod,n)+t[last.end():]
        open(f,'w').write(t)
    print('imports:',sum(len(s) for s in need.values()))
errs=[m.group(0) for m in re.finditer(r"^(/\S+?):(\d+):(\d+): error: .*(?:\n  .*)*",out,re.M)]
errs+=[m.group(0) for m in re.finditer(r"^/\S+: unsolved .*$",out,re.M)]
errs=[e for e in errs if 'was not admitted' not in e.split('\n')[0]]
for e in errs: print(e.replace('/work/idx/crates/','').replace('Rattle·','')[:900])
print(len(errs),'errors;',re.findall(r"^logic=\S+",out,re.M)[-1:], [l for l in out.split('\n') if 'NOT PROVED' in l][:3])
