"""ba.py NEWTREE ROUNDS: before (/work/h/before), after (NEWTREE) and OpenFst in turn; least of all rounds."""
import subprocess, sys, json
from pathlib import Path
new=Path(sys.argv[1]); rounds=int(sys.argv[2]); old=Path(sys.argv[3]); B=Path('/work/h/ba3'); B.mkdir(exist_ok=True)
sys.dont_write_bytecode=True
sys.path.insert(0,str(new/'bench')); import workloads
workloads.make(B/'w')
run=lambda *a: subprocess.run(a,check=True)
run('rustc','--edition','2021','-O',str(old/'bench/reader.rs'),'-L',f'native={old}/target/staticlib','-l','static=forthwn','-o',str(B/'old'))
run('rustc','--edition','2021','-O',str(new/'bench/reader.rs'),'-L',f'native={new}/target/staticlib','-l','static=forthwn','-o',str(B/'new'))
run('g++','-O2','-std=c++17',str(new/'bench/openfst.cc'),'-o',str(B/'openfst'),'-lfst','-ldl','-pthread')
L={}
def one(p,names):
    g=subprocess.run([str(B/p),str(B/'w'),*names],capture_output=True,text=True)
    if g.returncode: print(p,g.stderr); return
    for l in g.stdout.splitlines():
        n,c,ns=l.split(); k=(p,n,c); L[k]=min(float(ns),L.get(k,1e18))
for _ in range(rounds):
    one('openfst',workloads.NAMES+workloads.SIGNED); one('old',workloads.NAMES+workloads.SIGNED); one('new',workloads.NAMES+workloads.SIGNED)
calls=['refusal','read','write','compose','apply','trim','shortest','count','nth','distance','distance-joined']
print('call on old new new/old openfst times(old) times(new)')
yard={'refusal':'openfst-build','compose':'openfst-compose','apply':'openfst-apply','trim':'openfst-connect','shortest':'openfst-shortest','count':'openfst-count','distance':'openfst-distance','distance-joined':'openfst-distance-joined'}
for c in calls:
    for n in workloads.NAMES+workloads.SIGNED:
        o,w=L.get(('old',n,c)),L.get(('new',n,c)); f=L.get(('openfst',n,yard.get(c)))
        if w is None: continue
        print(c,n,f'{o:.0f}' if o else '-',f'{w:.0f}',f'{w/o:.3f}' if o else '-',f'{f:.0f}' if f else '-',f'{f/o:.2f}' if f and o else '-',f'{f/w:.2f}' if f else '-')
for k,v in sorted(L.items()):
    if k[1] not in workloads.NAMES+workloads.SIGNED: print(*k,f'{v:.0f}')
json.dump({'|'.join(k):v for k,v in L.items()},open(B/'last.json','w'))
