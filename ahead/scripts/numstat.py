import subprocess,sys,collections
repo,a,b=sys.argv[1:4]
out=subprocess.run(['git','-C',repo,'diff','--numstat','-M',a,b,'--','crates'],capture_output=True,text=True).stdout
t=collections.defaultdict(lambda:[0]*6)
import re
for l in out.splitlines():
    x,y,p=l.split('\t')
    p=re.sub(r'\{(.*?) => (.*?)\}',r'\2',p).replace('//','/')
    if ' => ' in p: p=p.split(' => ')[1]
    parts=p.split('/')
    k={'src':0,'specs':1,'proofs':2}.get(parts[2] if len(parts)>3 else '',None)
    if k is None: continue
    t[parts[1]][2*k]+=int(x); t[parts[1]][2*k+1]+=int(y)
names=[l.split(':')[0] for l in open(repo+'/crates.txt') if l.strip() and not l.startswith('#')]
f=lambda x,y: ' '.join(([f'+{x}'] if x else [])+([f'-{y}'] if y else []))
for n in names:
    if n in t: v=t[n]; print(f'| `{n}` | {f(v[0],v[1])} | {f(v[2],v[3])} | {f(v[4],v[5])} |')
s=[sum(v[i] for v in t.values()) for i in range(6)]; print('all',s)
