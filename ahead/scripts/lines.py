import sys, pathlib
root=pathlib.Path(sys.argv[1])
names=[l.split(':')[0] for l in (root/'crates.txt').read_text().splitlines() if l and not l.startswith('#')]
tot=[0,0,0,0]
out={}
for n in names:
    c=root/'crates'/n
    if not c.is_dir(): continue
    w=lambda d,e: sum(len(p.read_text().splitlines()) for p in (c/d).rglob('*'+e)) if (c/d).is_dir() else 0
    a=(w('src','.rt'),w('specs','.antt'),w('proofs','.antt'),len(list((c/'must-fail').glob('*.edit'))) if (c/'must-fail').is_dir() else 0)
    out[n]=a
    for i in range(4): tot[i]+=a[i]
for n,a in out.items(): print(n,*a)
print('all',*tot)
