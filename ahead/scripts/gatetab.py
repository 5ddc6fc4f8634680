import re,sys,subprocess
log=open(sys.argv[1]).read(); root=sys.argv[2]
proved=[]
for m in re.finditer(r'^rt: (\w+) proved \((\d+) s\)',log,re.M): proved.append((m.group(1),int(m.group(2))))
ed={}
for m in re.finditer(r'^rt: must-fail (\w+)/(\S+): refused.*; (\d+) s\)',log,re.M): ed.setdefault(m.group(1),[]).append(int(m.group(3)))
lines={}
for l in subprocess.run(['python3','/work/h/lines.py',root],capture_output=True,text=True).stdout.splitlines():
    n,*v=l.split(); lines[n]=[int(x) for x in v]
sec=dict(proved)
names=[l.split(':')[0] for l in open(root+'/crates.txt') if l.strip() and not l.startswith('#')]
print('| crate | seconds | code, specs, proofs in lines | must-fail edits |\n|---|---:|---|---|')
for n in names:
    if n not in lines: continue
    c,s,p,e=lines[n]; es=ed.get(n,[])
    what='0' if not es else (f'{len(es)}, {es[0]} s' if len(es)==1 else f'{len(es)}, {max(es)} s at most')
    print(f'| `{n}` | {sec.get(n,"?")} | {c:,}, {s:,}, {p:,} | {what} |')
    if len(es)!=e: print('!!',n,len(es),e)
c,s,p,e=lines['all']
print(f'\nIn all {c:,} lines of code, {s:,} of definitions, {p:,} of proof, {e} edits: {sum(sec.values())} seconds of proofs and {sum(map(sum,ed.values())):,} of edits, two at a time.')
