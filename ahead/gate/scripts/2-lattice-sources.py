import re
from pathlib import Path
import sys
L=Path(sys.argv[1]);R=L/'crates'
t=(R/'lattice/src/applying.rt').read_text()
def cut(a,b):
    i=t.index(a);j=t.index(b,i);return t[i:j]
string_ok=cut('// Whether a string has at most 64 symbols','// The symbol at a position')
symbol=cut('// The symbol at a position','// How far a step moves')
moved=cut('// How far a step moves','// Takes the step of an arc')
take=cut('// Takes the step of an arc','// Serves the state of number')
serve=cut('// Serves the state of number','// Walks from the first state')
rest=t[t.index('// Walks from the first state'):]
serve2=serve.replace('\nfn serve(','\npub fn serve(')
low='''// One lattice state served: the steps of its arcs taken.
ghost use mathlib.Core.Path.{_≡_};
ghost use mathlib.Core.Bool.{cond};
ghost use Prim.Native.Nat.{_<_};
ghost use lib.Dec.{ltb, eqb};
ghost use lib.ListN.{length, getD};
ghost use Rattle·transducer.specs.Format.{max-arcs, decode};
ghost use Rattle·explore.specs.Walk.{Sofar, taken, state-served, Walked, Went};
ghost use Rattle·apply·specs.specs.Apply.{string-good};
ghost use Rattle·apply·specs.specs.Pack.{unpacked};
ghost use Rattle·apply·specs.specs.Served.{next, arc-keyed, Applicable, State-in};
use crate::packing;
use explore::Walk;
use transducer::Arc;
use transducer::BARRED;
use transducer::MAX_ARCS;
use transducer::MAX_STATES;
use transducer::MAX_SYMBOLS;

'''+(string_ok.replace('\nfn string_ok','\npub fn string_ok') if not string_ok.startswith('fn') else string_ok)+symbol+moved+take+serve2
(R/'apply/src/serving.rt').write_text(low.rstrip('\n')+'\n')
lib=(R/'lattice/src/lib.rt').read_text();print(lib)
(R/'apply/src/lib.rt').write_text('''// The states and steps of applying an input string.
mod packing;
mod serving;

pub use packing::pack;
pub use packing::unpack;
pub use serving::serve;
pub use serving::string_ok;

'''+lib[lib.index('// A lattice state: a position'):])
(R/'lattice/src/lib.rt').write_text('''// Applying an input string to a transducer.
mod applying;

pub use applying::apply;
''')
top='''// Applying an input string: states numbered as first reached, their arcs written in turn, and the whole trimmed.
ghost use mathlib.Core.Path.{_≡_};
ghost use mathlib.Core.List.{List, map};
ghost use Prim.Native.Nat.{ℕ, _≤_, _<_};
ghost use lib.ListN.{length, getD, take};
ghost use lib.Seq.{sets};
ghost use Rattle·transducer.specs.Format.{max-states, max-arcs, max-bytes, head-bytes, arcs-at, decode};
ghost use Rattle·transducer.specs.Encode.{final-records};
ghost use Rattle·explore.specs.Explore.{built-refusal};
ghost use Rattle·explore.specs.Walk.{Sofar, Walk-says, Walk-told};
ghost use Rattle·apply.specs.Apply.{applied};
ghost use Rattle·apply.specs.Served.{Applicable};
ghost use Rattle·lattice·specs.specs.ApplyEntry.{Apply-says, apply-refusal};
ghost use Rattle·lattice·specs.specs.Applying.{found, key-code, key-finals, Small-codes, closed, Closes, Apply-asks};
use explore::Walk;
use transducer::ARC_BYTES;
use transducer::Final;
use transducer::MAX_ARCS;
use transducer::MAX_BYTES;
use transducer::MAX_STATES;
use transducer::Written;

// Where the walk writes the arcs: behind room for the head and as many finals as there can be.
const ARCS_FROM: usize = MAX_BYTES - ARC_BYTES * MAX_ARCS;

'''
rest=rest.replace('packing::pack(','apply::pack(').replace('packing::unpack(','apply::unpack(').replace(' = serve(',' = apply::serve(').replace('!string_ok(','!apply::string_ok(')
(R/'lattice/src/applying.rt').write_text(top+rest)
(R/'apply/proofs/Lib.antt').write_text('''-- Packing a lattice state
pub mod Pack
-- The steps of a lattice state
pub mod AppliedSteps
-- The loops: the test of the string, the arcs of a state
pub mod Symbols
pub mod ServedArcs
''')
p=R/'lattice/proofs/Lib.antt'
p.write_text('''-- Lattice states, and the trails of steps that stand for paths of the transducer
pub mod SameState
pub mod AppliedTrails
-- The lattice before trimming, and the lattice: it can be written, its states are accessible, its paths are those that fit the string
pub mod LatticeGood
pub mod AppliedNumbered
pub mod BuiltAccessible
pub mod LatticeLaw
pub mod Plain
-- The walk by packed states: it finds the lattice before trimming
pub mod KeyParts
pub mod FoundBuilt
-- The loops: the finals, the origins
pub mod KeyFinals
pub mod Tracing
-- What the calls leave and answer
pub mod Closing
pub mod AppliedWritten
pub mod ApplySays
''')
import re as r2
c=L/'crates.txt';s=c.read_text()
s=s.replace('lattice: wire transducer reach trim explore\n','apply: wire transducer explore\nlattice: wire transducer reach trim explore apply\n')
c.write_text(s)
crates={p.name for p in R.iterdir()}
for l in s.splitlines():
    if l.startswith('#') or not l.strip(): continue
    n,d=l.split(':');d=d.split()
    t='\n'.join(p.read_text() for p in (R/n).rglob('*') if p.suffix in('.rt','.antt'))
    used=set(re.findall(r'Rattle·(\w+)\.',t))|set(re.findall(r'\b(\w+)::',t))
    un=[x for x in d if x not in used]; miss=[x for x in used&crates if x not in d and x!=n]
    if un or miss: print(n,'unused',un,'missing',miss)
