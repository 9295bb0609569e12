#!/usr/bin/env python3
"""Turns proofs of the older kit, proofs/F/Proof.antt, into Invariants.antt and Answers.antt, by the names of the goals.

usage: python3 tools/convert_proofs.py crates/NAME NAMES.json [FN..]

NAMES.json is what `rt check --generated FOLDER --old-names` in the crate's folder writes into FOLDER, with the code in its final form and
the crates below proved. Answers that only search are left out: the check finds them. What can't be turned is printed, or stands as a
comment that begins 'LEFT'; a function with a type parameter wants `g` before `l` and `c`. Walks by hand are left alone: try without.
"""
import json, os, re, sys, glob
crate_dir, names_file, only = sys.argv[1].rstrip('/'), sys.argv[2], sys.argv[3:]
crate = os.path.basename(crate_dir)
names = json.load(open(names_file))
MUTS = {}
for f in glob.glob(os.path.dirname(crate_dir) + '/*/src/*.rt'):
    cr = f.split('/')[-3]
    for m in re.finditer(r"fn (\w+)(?:<[^>]*>)?\(([^)]*)\)", open(f).read()):
        MUTS[cr + '::' + m.group(1)] = [a.split(':')[0].strip() for a in m.group(2).split(',') if re.search(r":\s*&('\w+ )?mut", a)] + (['self'] if '&mut self' in m.group(2) else [])
def norm(s):
    s = s.replace('_lem','') if s.endswith('_lem') else s
    return s.replace('_','-').lower()
def blocks(text):
    head, uses, out, cur = [], [], [], []
    for line in text.split('\n'):
        if line.startswith('use ') or line.startswith('pub use '):
            uses.append(line); continue
        if line.startswith('--') and not out and not cur and not uses:
            head.append(line); continue
        if line.strip()=='' :
            if cur: out.append(cur); cur=[]
            continue
        cur.append(line)
    if cur: out.append(cur)
    # join continuation: blank lines inside a body (indented next)
    res=[]
    for b in out:
        if res and (b[0].startswith(' ') ): res[-1]+=['']+b
        else: res.append(b)
    # split blocks holding several declarations without blank lines
    return head, uses, res
def sub_words(body, table):
    pat = re.compile(r"(?<![\w.'₀₁-])(" + "|".join(sorted(map(re.escape, table), key=len, reverse=True)) + r")(?![\w₀'₁-])")
    return pat.sub(lambda m: table[m.group(1)], body)
for path in sorted(glob.glob(crate_dir + '/proofs/**/Proof.antt', recursive=True)):
    fn = os.path.relpath(os.path.dirname(path), crate_dir + '/proofs').replace('/', '.')
    if only and fn not in only: continue
    key = f"Rattle-{crate}-proofs.{fn}.Lts"
    text = open(path).read()
    if key not in names:
        print("no names for", fn); continue
    if 'tie.close' not in text:
        print("by hand:", fn); continue
    n = names[key]
    head, uses, bl = blocks(text)
    places = {p[0]: p for p in n['places']}
    needs = {}
    for (old, new), at in zip(n['needs'], n['asked_at']):
        needs[norm(old)] = (new, at[0]); needs.setdefault('overflow-' + norm(old), (new, at[0]))
    def chain(at):
        while at:
            yield at; at = places[at][1] if at in places else None
    def conv(body, at):
        for m in list(re.finditer(r"let (\w+) = c((?:\.before)+) in\s*", body)):
            body = body.replace(m.group(0), '', 1)
            body = re.sub(r"(?<![\w.-])" + m.group(1) + r"\.(?=[\w])", 'c.before.', body)
        def rep(m):
            f = m.group(2)
            if f in ('args','requires','ranges','well_formed','type_inv','fn','initial','auto','lifetimes'): return 'c.'+f
            for p in chain(at):
                o, nw = places[p][2]
                if o and norm(o) == norm(f): return 'c.' + nw
            for p in n['places']:
                if p[2][0] and norm(p[2][0]) == norm(f): return 'c.' + p[2][1]
            return 'c.' + f + '{-?-}'
        body = re.sub(r"(?<![\w.-])c((?:\.before)*)\.([\w-]+)", rep, body)
        def new_of(m):
            for p in n['places']:
                if p[2][1] == m.group(1) and p[3]:
                    ms = MUTS.get(p[3].split('::')[0] + '::' + p[3].split('::')[-1], [])
                    if int(m.group(2)) < len(ms): return f"c.{m.group(1)}.new.{ms[int(m.group(2))]}"
            return m.group(0)
        return re.sub(r"c\.([\w-]+)\.new\.(\d+)", new_of, body)
    inv, ans, helpers = [], [], []
    branches = set()
    vars_of = {}
    for i, (nm, vs) in enumerate(n['loops']):
        ch = n['changed'][i] if i < len(n['changed']) else [True]*len(vs)
        vars_of[norm(nm[0])] = (nm[1], vs, ch)
    bad = []
    for b in bl:
        decl = [i for i,l in enumerate(b) if not l.startswith('--')]
        if not decl: ans.append(('\n'.join(b), '')); continue
        first = b[decl[0]]; comment = b[:decl[0]]; rest = b[decl[0]+1:]
        m = re.match(r"(?:abbrev )?(?:pub )?([^\s:]+) : tie\.(\S+)(.*)$", first)
        if re.match(r"pub \S+ : .*statement M|pub \S+ : \{M : Type 1\}", first): continue
        if not m:
            helpers.append(b); continue
        name, kind = m.group(1), m.group(2)
        if kind.startswith(('invariant-','decreases-')):
            which, lp = kind.split('-',1)
            if norm(lp) not in vars_of:
                bad.append(f"{kind}: no loop"); helpers.append(b); continue
            new, vs, ch = vars_of[norm(lp)]
            body = '\n'.join(rest)
            mm = re.match(re.escape(name) + r"((?:\s+\S+)*?)\s*=(.*)$", body, re.S)
            params, body = mm.group(1).split(), mm.group(2)
            olds = [v for v in vs]
            table = {}
            order = [('l.initial.'+v if c else 'l.'+v) for v,c in zip(vs,ch)] + ['l.'+v for v,c in zip(vs,ch) if c]
            if len(params) != len(order): bad.append(f"{kind}: {params} against {vs} {ch}")
            for p,o in zip(params, order): table[p]=o
            body = sub_words(body, table)
            inv.append('\n'.join(comment + [f"abbrev pub {which}-{new} : goal.{which}-{new}", f"{which}-{new} l ={body}"]))
            continue
        if not kind.startswith('Need-'):
            bad.append(kind); helpers.append(b); continue
        k = norm(kind[5:])
        nd = needs.get(k)
        if not nd and k.startswith('overflow-'): nd = needs.get(k[9:])
        if not nd and k.startswith('slice-bounds-'): nd = needs.get('part-' + k[13:])
        if not nd and k.startswith('shape-of'): nd = needs.get(k.replace('shape-of','same-length'))
        body = '\n'.join(rest)
        if re.fullmatch(re.escape(name) + r"( c)?( κs)?( _)* = (search rules|refl)", body.strip()) and 'refl' not in body:
            continue
        if not nd:
            if k in [norm(x) for x in n['settled']]: continue
            bad.append(f"need {k} is not among {[x[0] for x in n['needs']]}"); 
            ans.append('\n'.join(['-- LEFT ' + l for l in b])); continue
        new, at = nd
        body = re.sub(r"(?m)^" + re.escape(name) + r" c( κs)?(?= |$)", new + " c", body)
        body = conv(body, at)
        def split(m):
            x, y, f = m.group(1), m.group(2), m.group(3)
            suf = f[3:]
            fix = lambda b: b.replace('.0.taken', '.' + f + '.true').replace('.0.left', '.' + f + '.false').replace('.taken', '.' + f + '.true').replace('.left', '.' + f + '.false')
            branches.add(suf)
            return f"elim c.{f}.branch [ then-{suf} {fix(x)} | else-{suf} {fix(y)} ]"
        body = re.sub(r"⊎_elim \(λ (\w+\. (?:[^()]|\((?:[^()]|\((?:[^()]|\([^()]*\))*\))*\))*)\) \(λ (\w+\. (?:[^()]|\((?:[^()]|\((?:[^()]|\([^()]*\))*\))*\))*)\) c\.(if-[\w-]+)\.branch", split, body)
        body = re.sub(r"(then|else)-([\w-]+) (\w+)\. ", r"\1-\2 \3 ↦ ", body)
        mm = re.search(r"(?:^|-)in-(\w+)$", new)
        arms = [places[p][2][1] for p in chain(at) if re.match(r"in-[A-Z]", places[p][2][1] or '')]
        if arms: body = re.sub(r"c\.[\w-]+-1\.given\.1", "c." + arms[0] + ".is", body)
        elif mm: body = re.sub(r"c\.[\w-]+-1\.given\.1", "c.in-" + mm.group(1) + ".is", body)
        body = re.sub(r"\.keys\d+\b", ".is", body)
        body = re.sub(r"(∙ )(c\.if-not-[\w-]+\.(?:true|false))", r"\1ap not \2", body)
        body = re.sub(r"not-(?:true|false) _ (c\.if-[\w-]+\.(?:true|false))", r"\1", body)
        if '{-?-}' in body: bad.append(f"{new}: unknown fields {set(re.findall(r'c[.][^ ]*?(?={-)', body))}")
        ans.append('\n'.join(comment + [f"pub {new} : goal.{new}", body]))
    base = [u for u in uses if '.Statement.' not in u and not u.endswith('.Tie as tie')]
    mod = f"Rattle.{crate}.proofs.{fn}"
    d = os.path.dirname(path)
    hs = ['\n'.join(h) for h in helpers]
    hinv = [h for h in helpers if any(re.search(r"(?<![\w.-])" + re.escape(re.match(r"(?:abbrev |unfoldable )*(?:pub )?(\S+)", [l for l in h if not l.startswith('--')][0]).group(1)) + r"(?![\w-])", t) for t in inv)]
    def hname(h): return re.match(r"(?:abbrev |unfoldable )*(?:pub )?(\S+)", [l for l in h if not l.startswith('--')][0]).group(1)
    out = {}
    if inv:
        t = head + base + [f"use {mod}.Given as goal", '']
        for h in hinv:
            i = [j for j,l in enumerate(h) if not l.startswith('--')][0]
            l = h[i]
            h = list(h)
            if 'pub ' not in l: h[i] = re.sub(r"^((?:abbrev )?)", r"\1pub ", l)
            t += h + ['']
        out['Invariants.antt'] = '\n'.join(t + ['\n\n'.join(inv), ''])
    hans = [h for h in helpers if h not in hinv]
    if ans or hans:
        t = head + base + [f"use {mod}.Goals as goal"]
        if branches: t.append(f"use {mod}.Goals.{{{', '.join(w + '-' + b for b in sorted(branches) for w in ('then','else'))}}}")
        if hinv: t.append(f"use {mod}.Invariants.{{{', '.join(hname(h) for h in hinv)}}}")
        t.append('')
        for h in hans: t += h + ['']
        if ans: out['Answers.antt'] = '\n'.join(t + ['\n\n'.join(x if isinstance(x,str) else x[0] for x in ans), ''])
    os.remove(path)
    for f, t in out.items(): open(os.path.join(d, f), 'w').write(t)
    if not out and not os.listdir(d): os.rmdir(d)
    print(fn, 'inv', len(inv), 'answers', len(ans), '; '.join(bad))
