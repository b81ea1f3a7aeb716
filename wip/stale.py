import glob,os
for e in sorted(glob.glob('crates/*/must-fail/*.edit')):
    base=e.split('/must-fail')[0]; name=None; texts={}
    for line in open(e).read().split('\n'):
        if line.startswith('file: '): name=line[6:]
        elif line.startswith('old: '):
            p=os.path.join(base,name)
            if p not in texts: texts[p]=open(p).read() if os.path.exists(p) else None
            t=texts[p]
            if t is None: print(e,'no file',name); continue
            old=line[5:]
            if t.count(old)!=1: print(e,t.count(old),old)
        elif line.startswith('new:'):
            if texts[p] is not None: texts[p]=texts[p].replace(old,line[4:].removeprefix(' '))
