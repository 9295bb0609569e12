import glob
bad=n=0
for e in sorted(glob.glob('crates/*/must-fail/*.edit')):
    c=e.split('/')[1]; f=None; n+=1; texts={}
    for l in open(e):
        l=l.rstrip('\n')
        if l.startswith('file: '):
            f=l[6:]; texts.setdefault(f,open(f'crates/{c}/{f}').read())
        elif l.startswith('old: '): o=l[5:]
        elif l.startswith('new: '):
            k=texts[f].count(o)
            if k!=1: bad+=1; print(e,k,repr(o))
            texts[f]=texts[f].replace(o,l[5:],1)
print(n,'edits',bad,'bad')
