"""perf.py TREE BEFORE_COMMIT AFTER_COMMIT: writes the before/after section from /work/h/ba/last3.json into docs/performance.md in the place of 'Small tables'."""
import json,re,sys
tree,bc,ac=sys.argv[1:4]
L={tuple(k.split('|')):v for k,v in json.load(open('/work/h/ba/last3.json')).items()}
W=['W1','W2','W3','W4','W1s','W2s','W3s','W4s']
yard={'compose':'openfst-compose','apply':'openfst-apply','trim':'openfst-connect','shortest':'openfst-shortest','count':'openfst-count','distance':'openfst-distance','distance-joined':'openfst-distance-joined'}
name={'distance':'distance of both','distance-joined':'of their composition','nth':'k-th path'}
out=[]
rows=[]
for c in ['compose','apply','trim','shortest','count','nth','distance','distance-joined']:
    for n in W:
        b,a=L.get(('before',n,c)),L.get(('after',n,c)); f=L.get(('openfst',n,yard.get(c,'')))
        if a is None or b is None: continue
        x=f'| {name.get(c,c)} | {n} | {b:,.0f} | {a:,.0f} | {a/b:.2f} | '
        x+=f'{f:,.0f} | {f/b:.2f} | {f/a:.2f} |' if f else '| | |'
        rows.append(x)
print('\n'.join(rows))
oth=[]
for c in ['refusal','read','write']:
    for n in W:
        b,a=L.get(('before',n,c)),L.get(('after',n,c))
        if a: oth.append((a/b,c,n))
oth.sort(); print(oth[0],oth[-1])
for k,v in sorted(L.items()):
    if k[1] not in W: print(k,f'{v:.0f}')
open('/work/h/rows.md','w').write('\n'.join(rows)+'\n')
