# For each `use Rattle·X.kind.Mod.{names}` of another crate: whether the module is there and declares the names.
import re,sys
from pathlib import Path
R=Path(sys.argv[1])/'crates'
crates={p.name for p in R.iterdir()}
cache={}
def text(c,kind,mod):
    k=(c,kind,mod)
    if k not in cache:
        p=R/c/kind/(mod.replace('.','/')+'.antt'); cache[k]=p.read_text() if p.exists() else None
    return cache[k]
for f in sorted(R.rglob('*')):
    if f.suffix not in('.antt','.rt'): continue
    here=f.relative_to(R).parts[0]
    for n,l in enumerate(f.read_text().split('\n'),1):
        m=re.match(r'(?:pub )?(?:ghost )?use Rattle·(\w+)(?:·(?:specs|proofs))?\.(specs|proofs)\.(?:(?:specs|proofs)\.)?([\w.+]+?)\.\{([^}]*)\};?$',l)
        if not m or m.group(1) not in crates: continue
        c,kind,mod,ns=m.groups()
        if mod.startswith('declared'):
            s=mod.split('.')[-1]
            src='\n'.join(p.read_text() for p in (R/c/'src').rglob('*.rt'))
            if not re.search(rf'(struct|enum) {s}\b',src): print(f'{f.relative_to(R)}:{n}: {c} has no struct {s}')
            continue
        if not mod[0].isupper(): continue
        t=text(c,kind,mod)
        if t is None:
            if mod.split('.')[0] not in ('Count',): print(f'{f.relative_to(R)}:{n}: {c} has no {kind}/{mod}')
            continue
        for x in [y.strip().split(' as ')[0] for y in ns.split(',')]:
            if not re.search(rf'(?m)(^|\s|\{{){re.escape(x)}(\s|$|,|\}})',t): print(f'{f.relative_to(R)}:{n}: {c} {kind}/{mod} has no {x}')
