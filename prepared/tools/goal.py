import sys,re
# goal.py LOG FN NEED: prints a hole's goal without 'computed from'
L=open(sys.argv[1]).read().split('\n')
fn,need=sys.argv[2],sys.argv[3]
for i,l in enumerate(L):
    if f'/{fn}/Proof.antt' in l and f'goal ? in `{need}`' in l:
        for m in L[i+1:i+80]:
            if 'computed from' in m or 'goal ? in' in m or 'not admitted' in m: break
            m=re.sub(r'c( \.before)+',lambda k:'c^%d'%k.group(0).count('.before'),m)
            m=re.sub(r'Rattle·[\w·]+\.(?:specs|proofs)\.(?:declared\.)?','',m)
            print(m[:300])
