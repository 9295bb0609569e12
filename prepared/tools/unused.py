import re,glob,sys
root=sys.argv[1] if len(sys.argv)>1 else 'crates'
for f in sorted(glob.glob(root+'/**/*.antt',recursive=True)+glob.glob(root+'/**/*.rt',recursive=True)):
    t=open(f).read()
    body='\n'.join(l for l in t.split('\n') if not re.match(r'\s*(unfoldable )?(pub )?(ghost )?(unfoldable )?(pub )?use ',l) and not l.strip().startswith('--') and not l.strip().startswith('//'))
    for m in re.finditer(r'^(.*?)\buse ([^\n{]*)\.\{([^}]*)\}',t,re.M):
        if 'pub' in m.group(1) or 'ghost' in m.group(1): continue
        for n in m.group(3).split(','):
            n=n.strip()
            if not n: continue
            key=n.split(' as ')[-1].strip()
            parts=[p for p in key.split('_') if p] if '_' in key and not f.endswith('.rt') else [key]
            if not all(re.search(r'(?<![\w\-′₀-₉≡])'+re.escape(p)+r'(?![\w\-′])',body) for p in parts):
                print(f,n)
