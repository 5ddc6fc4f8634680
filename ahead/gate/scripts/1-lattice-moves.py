import re,subprocess
from pathlib import Path
import sys
G=Path(sys.argv[1]);R=G/"crates"
def git(*a): subprocess.run(['git',*a],cwd=G,check=True)
def mv(a,b):
    (R/b).parent.mkdir(parents=True,exist_ok=True); git('mv','crates/'+a,'crates/'+b)
for d in ['apply/src','apply/specs','apply/proofs','apply/must-fail']: (R/d).mkdir(parents=True,exist_ok=True)
mv('lattice/specs/Apply.antt','apply/specs/Apply.antt')
mv('lattice/specs/Pack.antt','apply/specs/Pack.antt')
mv('lattice/src/packing.rt','apply/src/packing.rt')
mv('lattice/proofs/packing','apply/proofs/packing')
for f in ['string_ok','symbol_at','moved','take_step','serve']: mv(f'lattice/proofs/applying/{f}',f'apply/proofs/serving/{f}')
for f in ['AppliedSteps','Pack','ServedArcs','Symbols']: mv(f'lattice/proofs/{f}.antt',f'apply/proofs/{f}.antt')
for e in (R/'lattice/must-fail').glob('*.edit'): mv(f'lattice/must-fail/{e.name}',f'apply/must-fail/{e.name}')
for e in (R/'apply/must-fail').glob('*.edit'): e.write_text(e.read_text().replace('src/applying.rt','src/serving.rt'))
a=(R/'lattice/specs/Applying.antt').read_text()
blocks=re.split(r'\n\n',a.rstrip('\n'));head,blocks=blocks[0],blocks[1:]
def nm(b):
    l=[x for x in b.split('\n') if not x.startswith('--')][0]
    return re.match(r'(?:unfoldable |abbrev )?pub (?:record )?(\S+)',l).group(1)
B={nm(b):b for b in blocks};print(list(B))
low=['one','next','arc-keyed','Applicable','State-in']
print(head)
(R/'apply/specs/Served.antt').write_text('''-- What serving a state asks and leaves: the steps of its key. Assumes nothing: these are definitions.
use mathlib.Core.Path.{_≡_}
use mathlib.Core.Bool.{Bool, true}
use mathlib.Core.List.{List, [], _∷_, map}
use Prim.Native.Nat.{ℕ, _≤_, _<_}
use lib.ListN.{length}
use Rattle·transducer.specs.declared.Arc.{Arc}
use Rattle·transducer.specs.Format.{Transducer, decode}
use Rattle·transducer.specs.Each.{named}
use Rattle·transducer.specs.Leaf.{Opened, Indexed}
use Rattle·explore.specs.Walk.{Keyed, keyed}
use Rattle·apply·specs.specs.declared.State.{State}
use Rattle·apply·specs.specs.Apply.{string-good, steps}
use Rattle·apply·specs.specs.Pack.{pack, unpacked}

'''+'\n\n'.join(B[n] for n in low)+'\n')
(R/'apply/specs/Lib.antt').write_text('-- What a caller must believe\npub mod Apply\n-- What only inner contracts cite\npub mod Pack\npub mod Served\n')
nh='''-- What the parts of applying ask and leave: the walk by keys, the finals of the states met, the lattice before trimming as bytes.
-- Assumes nothing: these are definitions.
use mathlib.Core.Path.{_≡_}
use mathlib.Core.Bool.{Bool, true, not, cond}
use mathlib.Core.List.{List}
use Prim.Native.Nat.{ℕ, _+_, _≤_, _<_}
use lib.Dec.{eqb}
use lib.ListN.{length, getD, take, drop}
use Rattle·transducer.specs.declared.Final.{Final}
use Rattle·transducer.specs.Format.{Transducer, max-states, max-arcs, max-bytes, arcs-at, refusal, decode}
use Rattle·transducer.specs.Encode.{encode}
use Rattle·transducer.specs.Each.{named}
use Rattle·transducer.specs.Leaf.{max-code}
use Rattle·transducer.specs.Weight.{weight-of}
use Rattle·explore.specs.Explore.{finals-from}
use Rattle·explore.specs.Walk.{Sofar, explored}
use Rattle·apply.specs.Apply.{string-good, first-state}
use Rattle·apply.specs.Pack.{pack, unpacked}
use Rattle·apply.specs.Served.{next}'''
(R/'lattice/specs/Applying.antt').write_text('\n\n'.join([nh]+[B[n] for n in B if n not in low])+'\n')
l=(R/'lattice/specs/Lib.antt').read_text().replace('pub mod Apply\n','',1).replace('pub mod Pack\n','');(R/'lattice/specs/Lib.antt').write_text(l);print(l)
own={('specs','Applying',n):('apply','Served') for n in low}
whole={('specs','Apply'):'apply',('specs','Pack'):'apply'}
for m in ['AppliedSteps','Pack','ServedArcs','Symbols']: whole[('proofs',m)]='apply'
def path(c,kind,here): return f'Rattle·{c}·{kind}.{kind}' if c==here else f'Rattle·{c}.{kind}'
def rewrite(f,here):
    t=f.read_text();out=[]
    for l in t.split('\n'):
        m=re.match(r'((?:pub )?(?:ghost )?use )Rattle·lattice(?:·specs)?\.specs\.(?:specs\.)?declared\.State\.\{State\}(;?)$',l)
        if m: out.append(f"{m.group(1)}{path('apply','specs',here)}.declared.State.{{State}}{m.group(2)}");continue
        m=re.match(r'((?:pub )?(?:ghost )?use )Rattle·lattice(?:·(?:specs|proofs))?\.(specs|proofs)\.([A-Z]\w*)\.\{([^}]*)\}(;?)(.*)$',l)
        if m:
            pre,kind,mod,ns,semi,rest=m.groups();groups={}
            for n in [x.strip() for x in ns.split(',')]:
                if (kind,mod) in whole: o=(whole[(kind,mod)],mod)
                elif (kind,mod,n) in own: o=own[(kind,mod,n)]
                else: o=('lattice',mod)
                groups.setdefault(o,[]).append(n)
            for (c,mo),nn in sorted(groups.items(),key=lambda x:x[0][0]!='apply'):
                out.append(f"{pre}{path(c,kind,here)}.{mo}.{{{', '.join(nn)}}}{semi}{rest}")
            continue
        m=re.match(r'(use )Rattle·lattice·proofs\.proofs\.(applying|packing)\.(\w+)(.*)$',l)
        if m and here=='apply':
            out.append(f"{m.group(1)}Rattle·apply·proofs.proofs.{'serving' if m.group(2)=='applying' else 'packing'}.{m.group(3)}{m.group(4)}");continue
        out.append(l)
    n='\n'.join(out)
    if n!=t: f.write_text(n)
    if 'Rattle·lattice' in n and here=='apply': print('LEFT',f,re.findall('Rattle·lattice[^ ]*',n))
for c in sorted(x.name for x in R.iterdir()):
    for f in sorted((R/c).rglob('*')):
        if f.suffix in('.antt','.rt'): rewrite(f,c)
