#!/usr/bin/env python3
# PROOF_TOOLS=FOLDER auto.py CRATE ANSWERS: as answer.py, but «name» in an answer stands for the place in c where the record `name` lies (args: where the arguments lie)
import sys,re,os,subprocess
crate,af=sys.argv[1:3]
fn=None; out=[]; paths={}
def load(fn):
    r=subprocess.run(['python3',os.environ['PROOF_TOOLS']+'/paths.py',crate,fn],capture_output=True,text=True).stdout
    d={}; need=None
    for l in r.split('\n'):
        m=re.match(r'Need-(\S+):',l)
        if m: need=m.group(1); d[need]={}; continue
        m=re.match(r'\s+c((?: \.before)*) (?:\.([\w-]+) )?\.\{(.*)\}',l)
        if m and need:
            k=m.group(1).count('.before'); name=m.group(2)
            if name: d[need].setdefault(name,k)
            elif 'args' in m.group(3): d[need]['args']=k
    return d
for l in open(af,encoding='utf-8').read().split('\n'):
    if l.startswith('@'):
        fn=l[1:].strip(); paths=load(fn); need=None; out.append(l); continue
    m=re.match(r'([\w-]+)( unfolding [^=]*)? = ',l)
    if m and not l.startswith(('use ',' ')): need=m.group(1)
    def f(k):
        n=k.group(1); d=paths.get(need,{})
        if n not in d: print('no record',n,'in',fn,need,'have',sorted(d)); return 'c'
        return 'c'+' .before'*d[n]
    out.append(re.sub(r'«([\w-]+)»',f,l))
open('/tmp/auto.out','w').write('\n'.join(out))
subprocess.run(['python3',os.environ['PROOF_TOOLS']+'/answer.py',crate,'/tmp/auto.out']+sys.argv[3:])
