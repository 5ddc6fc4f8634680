import sys,re,os
root=sys.argv[1]
secs=dict(wire=7,bounds=3,transducer=41,codec=19,reach=19,least=2,trim=20,explore=11,lattice=44,steps=15,compose=56,paths=37,distance=37,shortest=16,claim=17,associate=4,listing=31,printed=5,starred=6,list=25,forthwn=18,limits=83)
for a in sys.argv[2:]:
    k,v=a.split('=');secs[k]=float(v)
deps={};lst=[]
for l in open(root+'/crates.txt'):
    l=l.split('#')[0].strip()
    if not l: continue
    n,d=l.split(':');deps[n.strip()]=d.split();lst.append(n.strip())
lev={};out=[]
def visit(n):
    if n in lev: return
    L=0
    for d in deps[n]:
        if d in deps: visit(d);L=max(L,lev[d]+1)
    lev[n]=L;out.append(n)
for n in lst: visit(n)
out.sort(key=lambda n:lev[n])
# proofs
tot=0;batch=[];at=None
def flush():
    global tot,batch
    if batch:
        m=max(secs[b] for b in batch);tot+=m
        print('  proof',lev[batch[0]],batch,[secs[b] for b in batch],m)
    batch=[]
for n in out:
    if lev[n]!=at or len(batch)>=2: flush()
    at=lev[n];batch.append(n)
flush()
p=tot
print('proofs',p,'sum',sum(secs[n] for n in out))
tot=0
eds=[]
for n in out:
    d=root+'/crates/'+n+'/must-fail'
    if os.path.isdir(d):
        for e in sorted(os.listdir(d)):
            if e.endswith('.edit'): eds.append((n,e[:-5]))
for i in range(0,len(eds),2):
    pr=eds[i:i+2];m=max(secs[a] for a,_ in pr);tot+=m
    print('  edits',[a+'/'+b for a,b in pr],m)
print('edits',tot,'sum',sum(secs[a] for a,_ in eds),len(eds))
print('all',p+tot)
