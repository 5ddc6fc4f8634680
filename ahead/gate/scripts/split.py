# Usage: split.py ROOT (a clean tree). Moves the states and steps of applying below lattice (crate apply) and the text of a listing below listing (crate text).
import re,subprocess
from pathlib import Path
import sys
G=Path(sys.argv[1]);R=G/"crates"
def git(*a): subprocess.run(['git',*a],cwd=G,check=True)
def mv(a,b):
    (R/b).parent.mkdir(parents=True,exist_ok=True); git('mv','crates/'+a,'crates/'+b)
for d in ['apply/src','apply/specs','apply/proofs','apply/must-fail']: (R/d).mkdir(parents=True,exist_ok=True)
mv('lattice/specs/Apply.antt','apply/specs/Apply.antt')
mv('lattice/specs/Pack.antt','apply/specs/Pack.antt')
mv('lattice/src/packing.rt','apply/src/packing.rt')
mv('lattice/proofs/packing','apply/proofs/packing')
for f in ['string_ok','symbol_at','moved','take_step','serve']: mv(f'lattice/proofs/applying/{f}',f'apply/proofs/serving/{f}')
for f in ['AppliedSteps','ServedArcs','Symbols']: mv(f'lattice/proofs/{f}.antt',f'apply/proofs/{f}.antt')
mv('lattice/proofs/Pack.antt','apply/proofs/PackParts.antt')
for e in (R/'lattice/must-fail').glob('*.edit'): mv(f'lattice/must-fail/{e.name}',f'apply/must-fail/{e.name}')
for e in (R/'apply/must-fail').glob('*.edit'): e.write_text(e.read_text().replace('src/applying.rt','src/serving.rt'))
a=(R/'lattice/specs/Applying.antt').read_text()
blocks=re.split(r'\n\n',a.rstrip('\n'));head,blocks=blocks[0],blocks[1:]
def nm(b):
    l=[x for x in b.split('\n') if not x.startswith('--')][0]
    return re.match(r'(?:unfoldable |abbrev )?pub (?:record )?(\S+)',l).group(1)
B={nm(b):b for b in blocks};print(list(B))
low=['one','next','arc-keyed','Applicable','State-in']
print(head)
(R/'apply/specs/Served.antt').write_text('''-- What serving a state asks and leaves: the steps of its key. Assumes nothing: these are definitions.
use mathlib.Core.Path.{_≡_}
use mathlib.Core.Bool.{Bool, true}
use mathlib.Core.List.{List, [], _∷_, map}
use Prim.Native.Nat.{ℕ, _≤_, _<_}
use lib.ListN.{length}
use Rattle·transducer.specs.declared.Arc.{Arc}
use Rattle·transducer.specs.Format.{Transducer, decode}
use Rattle·transducer.specs.Each.{named}
use Rattle·transducer.specs.Leaf.{Opened, Indexed}
use Rattle·explore.specs.Walk.{Keyed, keyed}
use Rattle·apply·specs.specs.declared.State.{State}
use Rattle·apply·specs.specs.Apply.{string-good, steps}
use Rattle·apply·specs.specs.Pack.{pack, unpacked}

'''+'\n\n'.join(B[n] for n in low)+'\n')
(R/'apply/specs/Lib.antt').write_text('-- What a caller must believe\npub mod Apply\n-- What only inner contracts cite\npub mod Pack\npub mod Served\n')
nh='''-- What the parts of applying ask and leave: the walk by keys, the finals of the states met, the lattice before trimming as bytes.
-- Assumes nothing: these are definitions.
use mathlib.Core.Path.{_≡_}
use mathlib.Core.Bool.{Bool, true, not, cond}
use mathlib.Core.List.{List}
use Prim.Native.Nat.{ℕ, _+_, _≤_, _<_}
use lib.Dec.{eqb}
use lib.ListN.{length, getD, take, drop}
use Rattle·transducer.specs.declared.Final.{Final}
use Rattle·transducer.specs.Format.{Transducer, max-states, max-arcs, max-bytes, arcs-at, refusal, decode}
use Rattle·transducer.specs.Encode.{encode}
use Rattle·transducer.specs.Each.{named}
use Rattle·transducer.specs.Leaf.{max-code}
use Rattle·transducer.specs.Weight.{weight-of}
use Rattle·explore.specs.Explore.{finals-from}
use Rattle·explore.specs.Walk.{Sofar, explored}
use Rattle·apply.specs.Apply.{string-good, first-state}
use Rattle·apply.specs.Pack.{pack, unpacked}
use Rattle·apply.specs.Served.{next}'''
(R/'lattice/specs/Applying.antt').write_text('\n\n'.join([nh]+[B[n] for n in B if n not in low])+'\n')
l=(R/'lattice/specs/Lib.antt').read_text().replace('pub mod Apply\n','',1).replace('pub mod Pack\n','');(R/'lattice/specs/Lib.antt').write_text(l);print(l)
own={('specs','Applying',n):('apply','Served') for n in low}
whole={('specs','Apply'):'apply',('specs','Pack'):'apply'}
for m in ['AppliedSteps','Pack','ServedArcs','Symbols']: whole[('proofs',m)]='apply'
def path(c,kind,here): return f'Rattle·{c}·{kind}.{kind}' if c==here else f'Rattle·{c}.{kind}'
def rewrite(f,here):
    t=f.read_text();out=[]
    for l in t.split('\n'):
        m=re.match(r'((?:pub )?(?:ghost )?use )Rattle·lattice(?:·specs)?\.specs\.(?:specs\.)?declared\.State\.\{State\}(;?)$',l)
        if m: out.append(f"{m.group(1)}{path('apply','specs',here)}.declared.State.{{State}}{m.group(2)}");continue
        m=re.match(r'((?:pub )?(?:ghost )?use )Rattle·lattice(?:·(?:specs|proofs))?\.(specs|proofs)\.([A-Z]\w*)\.\{([^}]*)\}(;?)(.*)$',l)
        if m:
            pre,kind,mod,ns,semi,rest=m.groups();groups={}
            for n in [x.strip() for x in ns.split(',')]:
                if (kind,mod)==('proofs','Pack'): o=('apply','PackParts')
                elif (kind,mod) in whole: o=(whole[(kind,mod)],mod)
                elif (kind,mod,n) in own: o=own[(kind,mod,n)]
                else: o=('lattice',mod)
                groups.setdefault(o,[]).append(n)
            for (c,mo),nn in sorted(groups.items(),key=lambda x:x[0][0]!='apply'):
                out.append(f"{pre}{path(c,kind,here)}.{mo}.{{{', '.join(nn)}}}{semi}{rest}")
            continue
        m=re.match(r'(use )Rattle·lattice·proofs\.proofs\.(applying|packing)\.(\w+)(.*)$',l)
        if m and here=='apply':
            out.append(f"{m.group(1)}Rattle·apply·proofs.proofs.{'serving' if m.group(2)=='applying' else 'packing'}.{m.group(3)}{m.group(4)}");continue
        out.append(l)
    n='\n'.join(out)
    if n!=t: f.write_text(n)
    if 'Rattle·lattice' in n and here=='apply': print('LEFT',f,re.findall('Rattle·lattice[^ ]*',n))
for c in sorted(x.name for x in R.iterdir()):
    for f in sorted((R/c).rglob('*')):
        if f.suffix in('.antt','.rt'): rewrite(f,c)

import re
from pathlib import Path
import sys
L=Path(sys.argv[1]);R=L/'crates'
t=(R/'lattice/src/applying.rt').read_text()
def cut(a,b):
    i=t.index(a);j=t.index(b,i);return t[i:j]
string_ok=cut('// Whether a string has at most 64 symbols','// The symbol at a position')
symbol=cut('// The symbol at a position','// How far a step moves')
moved=cut('// How far a step moves','// Takes the step of an arc')
take=cut('// Takes the step of an arc','// Serves the state of number')
serve=cut('// Serves the state of number','// Walks from the first state')
rest=t[t.index('// Walks from the first state'):]
serve2=serve.replace('\nfn serve(','\npub fn serve(')
low='''// One lattice state served: the steps of its arcs taken.
ghost use mathlib.Core.Path.{_≡_};
ghost use mathlib.Core.Bool.{cond};
ghost use Prim.Native.Nat.{_<_};
ghost use lib.Dec.{ltb, eqb};
ghost use lib.ListN.{length, getD};
ghost use Rattle·transducer.specs.Format.{max-arcs, decode};
ghost use Rattle·explore.specs.Walk.{Sofar, taken, state-served, Walked, Went};
ghost use Rattle·apply·specs.specs.Apply.{string-good};
ghost use Rattle·apply·specs.specs.Pack.{unpacked};
ghost use Rattle·apply·specs.specs.Served.{next, arc-keyed, Applicable, State-in};
use crate::packing;
use explore::Walk;
use transducer::Arc;
use transducer::BARRED;
use transducer::MAX_ARCS;
use transducer::MAX_STATES;
use transducer::MAX_SYMBOLS;

'''+(string_ok.replace('\nfn string_ok','\npub fn string_ok') if not string_ok.startswith('fn') else string_ok)+symbol+moved+take+serve2
(R/'apply/src/serving.rt').write_text(low.rstrip('\n')+'\n')
lib=(R/'lattice/src/lib.rt').read_text();print(lib)
(R/'apply/src/lib.rt').write_text('''// The states and steps of applying an input string.
mod packing;
mod serving;

pub use packing::pack;
pub use packing::unpack;
pub use serving::serve;
pub use serving::string_ok;

'''+lib[lib.index('// A lattice state: a position'):])
(R/'lattice/src/lib.rt').write_text('''// Applying an input string to a transducer.
mod applying;

pub use applying::apply;
''')
top='''// Applying an input string: states numbered as first reached, their arcs written in turn, and the whole trimmed.
ghost use mathlib.Core.Path.{_≡_};
ghost use mathlib.Core.List.{List, map};
ghost use Prim.Native.Nat.{ℕ, _≤_, _<_};
ghost use lib.ListN.{length, getD, take};
ghost use lib.Seq.{sets};
ghost use Rattle·transducer.specs.Format.{max-states, max-arcs, max-bytes, head-bytes, arcs-at, decode};
ghost use Rattle·transducer.specs.Encode.{final-records};
ghost use Rattle·explore.specs.Explore.{built-refusal};
ghost use Rattle·explore.specs.Walk.{Sofar, Walk-says, Walk-told};
ghost use Rattle·apply.specs.Apply.{applied};
ghost use Rattle·apply.specs.Served.{Applicable};
ghost use Rattle·lattice·specs.specs.ApplyEntry.{Apply-says, apply-refusal};
ghost use Rattle·lattice·specs.specs.Applying.{found, key-code, key-finals, Small-codes, closed, Closes, Apply-asks};
use explore::Walk;
use transducer::ARC_BYTES;
use transducer::Final;
use transducer::MAX_ARCS;
use transducer::MAX_BYTES;
use transducer::MAX_STATES;
use transducer::Written;

'''+cut('// Where the walk writes the arcs','// Whether a string has at most 64 symbols')+''''''
rest=rest.replace('packing::pack(','apply::pack(').replace('packing::unpack(','apply::unpack(').replace(' = serve(',' = apply::serve(').replace('!string_ok(','!apply::string_ok(')
(R/'lattice/src/applying.rt').write_text(top+rest)

# What each of the two files names of what the one named: by its body.
uses=[l for l in t.split('\n') if re.match(r'use (?!crate)[\w:]+;$',l)]
ghosts=[re.match(r'ghost use ([^{]+)\.\{([^}]*)\};$',l).groups() for l in t.split('\n') if l.startswith('ghost use ')]
def named(n,body):
    k=n.strip('_')
    return re.search(r'(?<![\w\-])'+re.escape(k)+r'(?![\w\-])',body) if not n.startswith('_') else re.search(r'(?<!\S)'+re.escape(k)+r'(?!\S)',body)
for f in ['apply/src/serving.rt','lattice/src/applying.rt']:
    q=R/f;x=q.read_text().split('\n')
    body='\n'.join(l for l in x if not re.match(r'(ghost )?use ',l) and not l.strip().startswith('//'))
    keep=[l for l in uses if re.search(r'\b'+l[:-1].split('::')[-1]+r'\b',body)]
    gh=[]
    for m,ns in ghosts:
        kept=[n for n in [y.strip() for y in ns.split(',')] if named(n,body)]
        if f.startswith('apply'): m=m.replace('Rattle·apply.specs.','Rattle·apply·specs.specs.')
        if kept: gh.append(f"ghost use {m}.{{{', '.join(kept)}}};")
    k=max(n for n,l in enumerate(x) if re.match(r'(ghost )?use ',l))
    first=[l for l in x[:k+1] if l.startswith('//')];crate=[l for l in x[:k+1] if l.startswith('use crate')]
    q.write_text('\n'.join(first+gh+crate+keep+x[k+1:]))
(R/'apply/proofs/Lib.antt').write_text('''-- Packing a lattice state
pub mod PackParts
-- The steps of a lattice state
pub mod AppliedSteps
-- The loops: the test of the string, the arcs of a state
pub mod Symbols
pub mod ServedArcs
''')
p=R/'lattice/proofs/Lib.antt';t=p.read_text()
for m in ['Pack','AppliedSteps','Symbols','ServedArcs']: t=t.replace('pub mod '+m+'\n','')
t=t.replace('-- Packing a lattice state\n','').replace('-- Lattice states and their steps, and the trails','-- Lattice states, and the trails').replace('-- The loops: the test of the string, the arcs of a state, the finals, the origins','-- The loops: the finals, the origins')
p.write_text(t);print(t)
import re as r2
c=L/'crates.txt';s=c.read_text()
s=s.replace('lattice: wire transducer reach trim explore\n','apply: wire transducer explore\nlattice: wire transducer reach trim explore apply\n')
c.write_text(s)

import re,subprocess
from pathlib import Path
import sys
L=Path(sys.argv[1]);R=L/'crates'
def git(*a): subprocess.run(['git',*a],cwd=L,check=True)
def mv(a,b):
    (R/b).parent.mkdir(parents=True,exist_ok=True); git('mv','crates/'+a,'crates/'+b)
for d in ['text/src','text/specs','text/proofs','text/must-fail']: (R/d).mkdir(parents=True,exist_ok=True)
inner='PathsCounted' if (R/'listing/specs/PathsCounted.antt').exists() else 'Walkable'
mv('listing/specs/Text.antt','text/specs/Text.antt');mv(f'listing/specs/{inner}.antt',f'text/specs/{inner}.antt')
mv('listing/src/lines.rt','text/src/lines.rt');mv('listing/src/text.rt','text/src/writing.rt')
mv('listing/proofs/lines','text/proofs/lines');mv('listing/proofs/text','text/proofs/writing')
for f in ['Decimal','Digits','Wrote','Short','NthLine']: mv(f'listing/proofs/{f}.antt',f'text/proofs/{f}.antt')
for e in ['count_of_99_listed','every_line_is_reading_0','refusal_not_told']: mv(f'listing/must-fail/{e}.edit',f'text/must-fail/{e}.edit')
(R/'text/specs/Lib.antt').write_text('-- What a caller must believe\npub mod Text\n-- What only inner contracts cite\npub mod '+inner+'\n')
(R/'listing/specs/Lib.antt').write_text('-- What a caller must believe; of a code only `labels-in`\npub mod Code\npub mod Entry\n')
(R/'text/proofs/Lib.antt').write_text('''-- In reading order.
-- Numbers in decimal, and texts written one behind the other.
pub mod Decimal
pub mod Digits
pub mod Wrote
-- How long the parts of a listing are, and the listing from the paths that are walked to.
pub mod Short
pub mod NthLine
''')
(R/'listing/proofs/Lib.antt').write_text('''-- A code's labels, and the text from what composing and applying answer.
pub mod Loading
pub mod Steps
''')
whole={('specs','Text'):'text',('specs',inner):'text'}
for m in ['Decimal','Digits','Wrote','Short','NthLine']: whole[('proofs',m)]='text'
def path(c,kind,here): return f'Rattle·{c}·{kind}.{kind}' if c==here else f'Rattle·{c}.{kind}'
def rewrite(f,here):
    t=f.read_text();out=[]
    for l in t.split('\n'):
        m=re.match(r'((?:pub )?(?:ghost )?use )Rattle·listing(?:·specs)?\.specs\.(?:specs\.)?declared\.Listed\.\{Listed\}(;?)$',l)
        if m: out.append(f"{m.group(1)}{path('text','specs',here)}.declared.Listed.{{Listed}}{m.group(2)}");continue
        m=re.match(r'((?:pub )?(?:ghost )?use )Rattle·listing(?:·(?:specs|proofs))?\.(specs|proofs)\.([A-Z]\w*)\.\{([^}]*)\}(;?)(.*)$',l)
        if m and (m.group(2),m.group(3)) in whole:
            pre,kind,mod,ns,semi,rest=m.groups()
            out.append(f"{pre}{path('text',kind,here)}.{mod}.{{{ns}}}{semi}{rest}");continue
        m=re.match(r'(use )Rattle·listing·proofs\.proofs\.(lines|text)\.(.*)$',l)
        if m and here=='text':
            out.append(f"{m.group(1)}Rattle·text·proofs.proofs.{'writing' if m.group(2)=='text' else 'lines'}.{m.group(3)}");continue
        out.append(l)
    n='\n'.join(out)
    if here=='text': n=n.replace('Rattle·listing·proofs.proofs.text','Rattle·text·proofs.proofs.writing').replace('Rattle·listing·proofs.proofs.lines','Rattle·text·proofs.proofs.lines')
    if n!=t: f.write_text(n)
    if 'Rattle·listing' in n and here=='text': print('LEFT',f,re.findall('Rattle·listing[^ ]*',n))
for c in sorted(x.name for x in R.iterdir()):
    for f in sorted((R/c).rglob('*')):
        if f.suffix in('.antt','.rt'): rewrite(f,c)
lib=(R/'listing/src/lib.rt').read_text();i=lib.index('// What the listing answers')
(R/'text/src/lib.rt').write_text('''// The text of the listing: a line for each accepting path, or a refusal.
mod lines;
mod writing;

pub use lines::list_into;
pub use lines::refuse_into;

'''+lib[i:])
(R/'listing/src/lib.rt').write_text('''// The listing: a text of the accepting paths.
mod code;
mod entry;

pub use entry::LEAST_ROOM;
pub use entry::listing as list;
''')
p=R/'text/src/lines.rt';s=p.read_text().replace('use crate::text;','use crate::writing;').replace('text::put_','writing::put_');p.write_text(s)
p=R/'listing/src/entry.rt';s=p.read_text().replace('use crate::Listed;\n','').replace('use crate::lines;\n','use text::Listed;\n').replace('lines::refuse_into','text::refuse_into').replace('lines::list_into','text::list_into');p.write_text(s)

# ---- crates.txt: what each crate names, and the order
import re as rx
ct=L/'crates.txt'
rows=[l for l in ct.read_text().splitlines() if l.strip() and not l.startswith('#')]
deps={l.split(':')[0]:l.split(':')[1].split() for l in rows}
deps['text']=[];
names=[p.name for p in R.iterdir() if p.is_dir()]
for n in deps:
    t='\n'.join(p.read_text() for p in (R/n).rglob('*') if p.suffix in('.rt','.antt'))
    used=set(rx.findall(r'(?m)^(?:pub )?(?:ghost )?use Rattle·(\w+)\.',t))|set(rx.findall(r'(?m)^[^/\n]*?\b(\w+)::','\n'.join(p.read_text() for p in (R/n).rglob('*.rt'))))
    deps[n]=[d for d in deps[n] if d in used or d not in names]+[d for d in names if d in used and d not in deps[n] and d!=n]
deps['list']=['text']+[d for d in deps['list'] if d!='text']
order='wire bounds transducer codec reach explore tally trim steps apply tell least compose paths lattice relax settle claim text calls distance listing shortest list printed starred associate forthwn limits'.split()
assert sorted(order)==sorted(deps),(set(order)^set(deps))
rank={n:i for i,n in enumerate(order)}
head=[l for l in ct.read_text().splitlines() if l.startswith('#')]
ct.write_text('\n'.join(head+[n+':'+''.join(' '+d for d in sorted(deps[n],key=lambda d:rank.get(d,99))) for n in order])+'\n')
print(ct.read_text())
# ---- moved: the proof ends in a fact
p=R/'apply/proofs/serving/moved/Proof.antt';t=p.read_text()
if 'refl' not in t:
    t=t.replace("-- The code is the definition.\n","-- The code is the definition.\nuse mathlib.Core.Path.{refl}\n").replace("(c .if1 .taken))\n","(c .if1 .taken)) refl\n").replace("(c .if1 .left))\n","(c .if1 .left)) refl\n");p.write_text(t)
