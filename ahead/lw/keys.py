import struct,sys
def dec(b):
    n,m,f,s=struct.unpack('<4H',b[4:12]); o=12; fin={}
    for _ in range(f): st,w=struct.unpack('<Hi',b[o+4:o+10]); fin[st]=w; o+=10
    arcs=[[] for _ in range(n)]
    for k in range(m):
        a=struct.unpack('<4Hi',b[o+4:o+16]); arcs[a[0]].append(a); o+=16
    return n,s,arcs
def keyseq(w):
    L=dec(open(f'/work/h/ba/w/{w}/left.tab','rb').read()); R=dec(open(f'/work/h/ba/w/{w}/right.tab','rb').read())
    first=(L[1],R[1],0); num={first:0}; q=[first]; seq=[(first,True)]; i=0
    while i<len(q):
        p,r,k=q[i]; i+=1
        ts=[]
        for a in L[2][p]:
            if a[2]==0:
                if k==0: ts.append((a[3],r,0))
            else:
                for b in R[2][r]:
                    if b[1]==a[2]: ts.append((a[3],b[3],0))
        for b in R[2][r]:
            if b[1]==0: ts.append((p,b[3],1))
        for t in ts:
            new=t not in num
            if new: num[t]=len(q); q.append(t)
            seq.append((t,new))
    return seq
if __name__=='__main__':
    S={w:keyseq(w) for w in ['W1','W2','W3','W4']}
    def stat(h,B):
        out=[]
        for w,seq in S.items():
            tab={}; odd=0; probes=0
            for (l,r,f),new in seq:
                b=h(l,r,f)%B; ch=tab.setdefault(b,[])
                # search front to back (latest first)
                n=0
                for c in ch:
                    n+=1
                    if c==(l,r,f): break
                probes+=n
                if new:
                    odd+= n>0
                    ch.insert(0,(l,r,f))
                else: odd+= n>1
            out.append((len(seq),odd,probes))
        return out
    key=lambda l,r,f:(l*1024+r)*2+f
    H={}
    for B,sh in ((1024,22),(2048,21),(4096,20)):
        H[f'mul{B}']=(lambda l,r,f,sh=sh:((key(l,r,f)*2654435761)&0xffffffff)>>sh,B)
        for M in (37,61,47,53,67,101,131,197,331,613,1447):
            H[f'lin{M}_{B}']=(lambda l,r,f,M=M:(key(l,r,f)>>10)+key(l,r,f)*M,B)
    for n,(h,B) in H.items(): print(n,*[f'{o}/{t}({p})' for t,o,p in stat(h,B)])
