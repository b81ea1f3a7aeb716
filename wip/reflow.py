import sys,re,textwrap
W=120
for f in sys.argv[1:]:
    L=open(f).read().split('\n'); out=[]; i=0; fence=False
    while i<len(L):
        l=L[i]
        if l.strip().startswith('```'): fence=not fence
        if fence or l.startswith('    ') and not (out and out[-1].strip()) or l.startswith('|') or l.startswith('#') or not l.strip():
            out.append(l); i+=1; continue
        # gather block: until blank, new bullet, table, heading, fence
        m=re.match(r"^(\s*)([-*]|\d+\.)\s+",l)
        j=i+1
        while j<len(L) and L[j].strip() and not re.match(r"^\s*([-*]|\d+\.)\s+",L[j]) and not L[j].startswith(('|','#')) and not L[j].strip().startswith('```'):
            j+=1
        block=L[i:j]
        if max(len(x) for x in block)>W:
            if m: ind=' '*len(m.group(0)); first=m.group(0); body=l[len(first):]
            else:
                ind=re.match(r"^\s*",l).group(0); first=ind; body=l[len(ind):]
            body=' '.join([body.rstrip()]+[x.strip() for x in block[1:]])
            # protect inline code spans
            body=re.sub(r"`[^`]*`",lambda mm:mm.group(0).replace(' ','\x00'),body)
            r=textwrap.wrap(body,W,initial_indent=first,subsequent_indent=ind,break_long_words=False,break_on_hyphens=False)
            out+= [x.replace('\x00',' ') for x in r]
        else: out+=block
        i=j
    open(f,'w').write('\n'.join(out))
