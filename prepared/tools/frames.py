import re,subprocess,sys
code=subprocess.run(['arm-none-eabi-objdump','-d','-r','--no-show-raw-insn',sys.argv[1]],capture_output=True,text=True).stdout
fr={};calls={};name=None
for l in code.splitlines():
    m=re.match(r'[0-9a-f]+ <(.*)>:',l)
    if m: name=m.group(1); fr[name]=0; calls[name]=set(); seen=False; continue
    if not name: continue
    m=re.search(r'\t(?:stmdb\tsp!, |push\t|push\.w\t)\{(.*)\}',l)
    if m and fr[name]<400:
        n=0
        for r in m.group(1).split(','):
            r=r.strip()
            if '-' in r:
                a,b=r.split('-'); n+=int(b[1:])-int(a[1:])+1
            else: n+=1
        fr[name]=max(fr[name],0)+4*n if not seen else fr[name]
    m=re.search(r'\tsub(?:w|\.w)?\tsp, (?:sp, )?#(\d+)',l)
    if m and not seen: fr[name]+=int(m.group(1)); seen=True
    m=re.search(r'R_ARM_THM_(?:CALL|JUMP24)\s+(\S.*)',l)
    if m: calls[name].add(m.group(1).strip())
    m=re.search(r'\tbl\t[0-9a-f]+ <(.*?)(\+0x[0-9a-f]+)?>',l)
def depth(n,s=()):
    if n in s: return 0
    return fr.get(n,0)+max([depth(c,s+(n,)) for c in calls.get(n,())],default=0)
for n in fr:
    if n.startswith('tablespit'): print(n,fr[n],depth(n),sorted(calls[n]))
print()
for n in sorted(fr,key=lambda n:-fr[n]): print(fr[n],depth(n),n,sorted(calls[n]))
