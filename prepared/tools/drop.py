import os,re,sys,subprocess
out=subprocess.run(['python3',os.path.join(os.path.dirname(os.path.abspath(__file__)),'unused.py'),sys.argv[1]],capture_output=True,text=True).stdout
for l in out.splitlines():
    f,n=l.split(' ',1)
    if len(sys.argv)>2 and not re.search(sys.argv[2],f): continue
    t=open(f).read()
    pat=re.compile(r'^(use [^\n{]*\.\{)([^}]*)\}\n',re.M)
    def r(m):
        items=[x.strip() for x in m.group(2).split(',')]
        if n in items:
            items.remove(n)
            return m.group(1)+', '.join(items)+'}\n' if items else ''
        return m.group(0)
    open(f,'w').write(pat.sub(r,t))
