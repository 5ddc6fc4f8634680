import sys
from pathlib import Path
R=Path(sys.argv[1])/'crates';n=0
for e in sorted(R.glob('*/must-fail/*.edit')):
    c=e.parts[-3];f=None;texts={}
    for l in e.read_text().split('\n'):
        if l.startswith('file: '): f=R/c/l[6:]
        elif l.startswith('old: '): old=l[5:]
        elif l.startswith('new:'):
            new=l[4:].removeprefix(' ')
            t=texts.get(f) or f.read_text()
            if t.count(old)!=1: print('BAD',e,t.count(old))
            texts[f]=t.replace(old,new)
    n+=1
print(n,'edits')
