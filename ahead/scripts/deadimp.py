import re,sys
for f in sys.argv[1:]:
    try: t=open(f).read()
    except FileNotFoundError: continue
    body=re.sub(r'(--|//).*','',t)
    uses=re.findall(r'^(?:ghost )?(?:pub )?use ([^\n;{]+)\.\{([^}]*)\};?',body,re.M)
    rest=re.sub(r'^(?:ghost )?use [^\n]*\n','',body,flags=re.M)
    toks=set(re.findall(r"[^\s(){}\[\],;.:`\"]+",rest))|set(re.findall(r"[^\s(){}\[\],;`\"]+",rest))
    for m,ns in uses:
        for n in [x.strip() for x in ns.split(',')]:
            if not n: continue
            k=[p for p in n.split('_') if p] if ('_' in n and f.endswith('.antt') and (n.startswith('_') or n.endswith('_'))) or (n.startswith('_')) else [n]
            if not all(any(p==x for x in toks) for p in k): print(f,m,n)
