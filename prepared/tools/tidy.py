#!/usr/bin/env python3
# tidy.py FILES: takes off what the check prints and nobody needs in a proof file
import sys,re
for p in sys.argv[1:]:
    s=open(p).read()
    s=re.sub(r'^-- src/\S+\n','',s,flags=re.M)
    lines=s.split('\n'); out=[]
    for l in lines:
        m=re.match(r'use \S+ as (\S+)$',l)
        if m and len(re.findall(r'(?<![\w-])%s\.'%re.escape(m.group(1)),'\n'.join(x for x in lines if x!=l)))==0: continue
        m=re.match(r'use (\S+)\.\{(.*)\}$',l)
        if m:
            names=[n.strip() for n in m.group(2).split(',')]
            rest='\n'.join(x for x in lines if not x.startswith('use '))
            keep=[]
            for n in names:
                core=n.replace('_','')
                if n.startswith('_') or n.endswith('_') : pat=re.escape(core)
                else: pat=r'(?<![\w\-·])%s(?![\w\-·])'%re.escape(n)
                if re.search(pat,rest): keep.append(n)
            if not keep: continue
            l='use %s.{%s}'%(m.group(1),', '.join(keep))
        out.append(l)
    # imports: needs after others is fine; collapse doubled blank lines
    s='\n'.join(out); s=re.sub(r'\n{3,}','\n\n',s)
    open(p,'w').write(s)
