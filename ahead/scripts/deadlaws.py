import re,subprocess,os,sys
root='crates'
files=[os.path.join(d,f) for d,_,fs in os.walk(root) for f in fs if f.endswith(('.antt','.rt'))]
text={f:open(f).read() for f in files}
docs={}
words={}
tok=re.compile(r"[^\s(){}\[\],;λ.:`\"]+")
for f,t in text.items():
    c={}
    for w in tok.findall(re.sub(r'--.*|//.*','',t)): c[w]=c.get(w,0)+1
    words[f]=c
changed=sys.argv[1:] or files
for f in changed:
    if not f.endswith('.antt') or f not in text: continue
    names=set(re.findall(r'^\s*(?:unfoldable |abbrev )*(?:pub )?([^\s:()]+) : ', text[f], re.M))
    for n in sorted(names):
        if n.startswith('let'): continue
        tot=sum(c.get(n,0) for c in words.values())
        own=words[f].get(n,0)
        others=tot-own
        # own: signature + definition lines (+pattern clauses)
        defs=len(re.findall(r'^\s*(?:unfoldable |abbrev )*(?:pub )?'+re.escape(n)+r'(?= )',text[f],re.M))
        if others==0 and own<=defs: print(f,n,own,defs)
