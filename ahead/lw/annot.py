import re,sys,subprocess
cg,binf,div=sys.argv[1],sys.argv[2],int(sys.argv[3])
cost={};addr=0;skip=0;ob='';obs={}
for l in open(cg):
    l=l.rstrip('\n')
    if l.startswith('ob='):
        m=re.match(r'ob=\((\d+)\)(?: (.*))?',l)
        if m.group(2): obs[m.group(1)]=m.group(2)
        ob=obs.get(m.group(1),'')
        continue
    m=re.match(r'calls=',l)
    if m: skip=1; continue
    m=re.match(r'(0x[0-9a-f]+|\+\d+|-\d+|\*) (\S+) (\d+)$',l)
    if m:
        a=m.group(1)
        if a.startswith('0x'): addr=int(a,16)
        elif a[0]=='+': addr+=int(a[1:])
        elif a[0]=='-': addr-=int(a[1:])
        if skip: skip=0; continue
        cost[addr]=cost.get(addr,0)+int(m.group(3))
# load base
import collections
dis=subprocess.run(['objdump','-d','--no-show-raw-insn','-M','intel',binf],capture_output=True,text=True).stdout
base=None
lines=dis.splitlines()
# guess base: PIE at 0x108000 or 0x400000
addrs=[]
for l in lines:
    m=re.match(r'\s*([0-9a-f]+):\t(.*)',l)
    if m: addrs.append(int(m.group(1),16))
s=set(addrs)
best=None
for b in (0,0x108000,0x109000,0x400000,0x4000000):
    n=sum(c for a,c in cost.items() if a-b in s)
    if best is None or n>best[0]: best=(n,b)
b=best[1]
fn=''
for l in lines:
    m=re.match(r'[0-9a-f]+ <(.*)>:',l)
    if m: fn=m.group(1); print('==',fn); continue
    m=re.match(r'\s*([0-9a-f]+):\t(.*)',l)
    if m:
        a=int(m.group(1),16); c=cost.get(a+b,0)
        if c>=int(sys.argv[4])*div if len(sys.argv)>4 else c: print(f'{c/div:9.1f} {a:x}: {m.group(2)}')
