import sys,re
c=sys.argv[1]
b=float(open(f'/work/h/G.scratch/inc/{c}.began').read())
rows=[]
for l in open(f'/work/h/G.scratch/inc/{c}.files'):
    t,s,p=l.rstrip('\n').split(' ',2)
    rows.append((float(t),p.split('/')[-1]))
rows.sort()
prev=b
from collections import defaultdict
grp=defaultdict(float);out=[]
for t,n in rows:
    d=t-prev;prev=t
    k=re.sub(r'\.(decls|oantt|.*)$','',n) if 0 else n
    m=re.match(r'Rattle·[a-z]*(?:·(specs|proofs))?\.?(.*?)(\.decls)?\.oantt',n)
    key=(m.group(1) or '')+':'+m.group(2) if m else n
    parts=key.split('.')
    key2='.'.join(parts[:4])
    grp[key2]+=d
tot=prev-b
print('total',round(tot,1))
for k,v in sorted(grp.items(),key=lambda x:-x[1])[:int(sys.argv[2]) if len(sys.argv)>2 else 60]: print(f'{v:7.2f} {100*v/tot:5.1f}% {k}')
