"""ba3.py ROUNDS NAME=TREE ..: the readers of some trees and OpenFst in turn; least of all rounds."""
import subprocess, sys, json
from pathlib import Path
rounds=int(sys.argv[1]); trees=[(a.split('=')[0],Path(a.split('=')[1])) for a in sys.argv[2:]]; B=Path('/work/h/ba2'); B.mkdir(exist_ok=True)
sys.dont_write_bytecode=True
sys.path.insert(0,str(trees[-1][1]/'bench')); import workloads
workloads.make(B/'w'); import shutil; shutil.copytree(str(trees[-1][1]/'target/workloads/slips'), str(B/'w/slips'), dirs_exist_ok=True)
run=lambda *a: subprocess.run(a,check=True)
for n,t in trees:
    run('rustc','--edition','2021','-O',str(t/'bench/reader.rs'),'-L',f'native={t}/target/staticlib','-l','static=forthwn','-o',str(B/n))
run('g++','-O2','-std=c++17',str(trees[-1][1]/'bench/openfst.cc'),'-o',str(B/'openfst'),'-lfst','-ldl','-pthread')
L={}; W=workloads.NAMES+workloads.SIGNED
def one(p):
    g=subprocess.run([str(B/p),str(B/'w'),*W],capture_output=True,text=True)
    if g.returncode: print(p,g.stderr); return
    for l in g.stdout.splitlines():
        n,c,ns=l.split(); k=(p,n,c); L[k]=min(float(ns),L.get(k,1e18))
for r in range(rounds):
    one('openfst')
    ts=[n for n,_ in trees]
    for n in (ts if r%2==0 else ts[::-1]): one(n)
yard={'refusal':'openfst-build','compose':'openfst-compose','apply':'openfst-apply','trim':'openfst-connect','shortest':'openfst-shortest','count':'openfst-count','distance':'openfst-distance','distance-joined':'openfst-distance-joined'}
last=trees[-1][0]
print('call','on',*[n for n,_ in trees],*[f'{last}/{n}' for n,_ in trees[:-1]],'openfst',*[f'times({n})' for n,_ in trees])
for c in ['refusal','read','write','compose','apply','trim','shortest','count','nth','distance','distance-joined']:
    for n in W:
        v=[L.get((t,n,c)) for t,_ in trees]; f=L.get(('openfst',n,yard.get(c)))
        if v[-1] is None: continue
        print(c,n,*[f'{x:.0f}' for x in v],*[f'{v[-1]/x:.3f}' for x in v[:-1]],f'{f:.0f}' if f else '-',*([f'{f/x:.2f}' for x in v] if f else []))
for k,v in sorted(L.items()):
    if k[1] not in W: print(*k,f'{v:.0f}')
json.dump({'|'.join(k):v for k,v in L.items()},open(B/'last3.json','w'))
