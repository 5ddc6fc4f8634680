import sys,os,itertools,random
root=sys.argv[1]
secs=dict(wire=7,bounds=3,transducer=41,codec=19,reach=19,least=2,trim=20,explore=11,lattice=28,apply=18,steps=15,compose=56,tally=4,tell=6,paths=28,relax=6,settle=17,distance=11,shortest=16,claim=17,associate=4,text=17,listing=14,printed=5,starred=6,list=25,forthwn=18,calls=35,limits=24)
for a in sys.argv[2:]:
    k,v=a.split('=');secs[k]=float(v)
deps={};lst=[]
for l in open(root+'/crates.txt'):
    l=l.split('#')[0].strip()
    if not l: continue
    n,d=l.split(':');deps[n.strip()]=d.split();lst.append(n.strip())
lev={}
def level(n):
    if n not in lev: lev[n]=max([level(d)+1 for d in deps[n] if d in deps],default=0)
    return lev[n]
for n in lst: level(n)
L={}
for n in lst: L.setdefault(lev[n],[]).append(n)
edits={n:len([e for e in os.listdir(root+'/crates/'+n+'/must-fail') if e.endswith('.edit')]) if os.path.isdir(root+'/crates/'+n+'/must-fail') else 0 for n in lst}
def cost(order):
    p=0
    for k in sorted(order):
        o=order[k]
        for i in range(0,len(o),2): p+=max(secs[x] for x in o[i:i+2])
    seq=[n for k in sorted(order) for n in order[k] for _ in range(edits[n])]
    e=sum(max(secs[x] for x in seq[i:i+2]) for i in range(0,len(seq),2))
    return p+e,p,e
best={k:list(v) for k,v in L.items()}
print('now',cost(best))
bc=cost(best)[0]
random.seed(1)
for rep in range(30):
    cur={k:random.sample(v,len(v)) for k,v in L.items()} if rep else {k:list(v) for k,v in best.items()}
    cc=cost(cur)[0];imp=True
    while imp:
        imp=False
        for k in cur:
            for perm in itertools.permutations(cur[k]) if len(cur[k])<=6 else [random.sample(cur[k],len(cur[k])) for _ in range(500)]:
                c2=dict(cur);c2[k]=list(perm);x=cost(c2)[0]
                if x<cc-1e-9: cur,cc,imp=c2,x,True
    if cc<bc: best,bc=cur,cc
print('best',cost(best))
for k in sorted(best): print(k,[(n,secs[n],edits[n]) for n in best[k]])
print('sum proofs',sum(secs[n] for n in lst),'sum edits',sum(secs[n]*edits[n] for n in lst))
