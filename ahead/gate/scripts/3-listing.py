import re,subprocess
from pathlib import Path
import sys
L=Path(sys.argv[1]);R=L/'crates'
def git(*a): subprocess.run(['git',*a],cwd=L,check=True)
def mv(a,b):
    (R/b).parent.mkdir(parents=True,exist_ok=True); git('mv','crates/'+a,'crates/'+b)
for d in ['text/src','text/specs','text/proofs','text/must-fail']: (R/d).mkdir(parents=True,exist_ok=True)
mv('listing/specs/Text.antt','text/specs/Text.antt');mv('listing/specs/Walkable.antt','text/specs/Walkable.antt')
mv('listing/src/lines.rt','text/src/lines.rt');mv('listing/src/text.rt','text/src/writing.rt')
mv('listing/proofs/lines','text/proofs/lines');mv('listing/proofs/text','text/proofs/writing')
for f in ['Decimal','Digits','Wrote','Short','NthLine']: mv(f'listing/proofs/{f}.antt',f'text/proofs/{f}.antt')
for e in ['count_of_99_listed','every_line_is_reading_0','refusal_not_told']: mv(f'listing/must-fail/{e}.edit',f'text/must-fail/{e}.edit')
(R/'text/specs/Lib.antt').write_text('-- What a caller must believe\npub mod Text\n-- What only inner contracts cite\npub mod Walkable\n')
(R/'listing/specs/Lib.antt').write_text('-- What a caller must believe; of a code only `labels-in`\npub mod Code\npub mod Entry\n')
(R/'text/proofs/Lib.antt').write_text('''-- In reading order.
-- Numbers in decimal, and texts written one behind the other.
pub mod Decimal
pub mod Digits
pub mod Wrote
-- How long the parts of a listing are, and the listing from the paths that are walked to.
pub mod Short
pub mod NthLine
''')
(R/'listing/proofs/Lib.antt').write_text('''-- A code's labels, and the text from what composing and applying answer.
pub mod Loading
pub mod Steps
''')
whole={('specs','Text'):'text',('specs','Walkable'):'text'}
for m in ['Decimal','Digits','Wrote','Short','NthLine']: whole[('proofs',m)]='text'
def path(c,kind,here): return f'Rattle·{c}·{kind}.{kind}' if c==here else f'Rattle·{c}.{kind}'
def rewrite(f,here):
    t=f.read_text();out=[]
    for l in t.split('\n'):
        m=re.match(r'((?:pub )?(?:ghost )?use )Rattle·listing(?:·specs)?\.specs\.(?:specs\.)?declared\.Listed\.\{Listed\}(;?)$',l)
        if m: out.append(f"{m.group(1)}{path('text','specs',here)}.declared.Listed.{{Listed}}{m.group(2)}");continue
        m=re.match(r'((?:pub )?(?:ghost )?use )Rattle·listing(?:·(?:specs|proofs))?\.(specs|proofs)\.([A-Z]\w*)\.\{([^}]*)\}(;?)(.*)$',l)
        if m and (m.group(2),m.group(3)) in whole:
            pre,kind,mod,ns,semi,rest=m.groups()
            out.append(f"{pre}{path('text',kind,here)}.{mod}.{{{ns}}}{semi}{rest}");continue
        m=re.match(r'(use )Rattle·listing·proofs\.proofs\.(lines|text)\.(.*)$',l)
        if m and here=='text':
            out.append(f"{m.group(1)}Rattle·text·proofs.proofs.{'writing' if m.group(2)=='text' else 'lines'}.{m.group(3)}");continue
        out.append(l)
    n='\n'.join(out)
    if here=='text': n=n.replace('Rattle·listing·proofs.proofs.text','Rattle·text·proofs.proofs.writing').replace('Rattle·listing·proofs.proofs.lines','Rattle·text·proofs.proofs.lines')
    if n!=t: f.write_text(n)
    if 'Rattle·listing' in n and here=='text': print('LEFT',f,re.findall('Rattle·listing[^ ]*',n))
for c in sorted(x.name for x in R.iterdir()):
    for f in sorted((R/c).rglob('*')):
        if f.suffix in('.antt','.rt'): rewrite(f,c)
lib=(R/'listing/src/lib.rt').read_text();i=lib.index('// What the listing answers')
(R/'text/src/lib.rt').write_text('''// The text of the listing: a line for each accepting path, or a refusal.
mod lines;
mod writing;

pub use lines::list_into;
pub use lines::refuse_into;

'''+lib[i:])
(R/'listing/src/lib.rt').write_text('''// The listing: a text of the accepting paths.
mod code;
mod entry;

pub use entry::LEAST_ROOM;
pub use entry::listing as list;
''')
p=R/'text/src/lines.rt';s=p.read_text().replace('use crate::text;','use crate::writing;').replace('text::put_','writing::put_');p.write_text(s)
p=R/'listing/src/entry.rt';s=p.read_text().replace('use crate::Listed;\n','').replace('use crate::lines;\n','use text::Listed;\n').replace('lines::refuse_into','text::refuse_into').replace('lines::list_into','text::list_into');p.write_text(s)
c=L/'crates.txt';s=c.read_text()
s=s.replace('listing: wire transducer explore compose apply lattice tally tell paths\n','text: wire transducer tally tell paths\nlisting: wire transducer explore compose apply lattice paths text\n')
c.write_text(s)
crates={p.name for p in R.iterdir()}
for l in s.splitlines():
    if l.startswith('#') or not l.strip(): continue
    n,d=l.split(':');d=d.split()
    t='\n'.join(p.read_text() for p in (R/n).rglob('*') if p.suffix in('.rt','.antt'))
    used=set(re.findall(r'Rattle·(\w+)\.',t))|set(re.findall(r'\b(\w+)::',t))
    un=[x for x in d if x not in used]; miss=[x for x in used&crates if x not in d and x!=n]
    if un or miss: print(n,'unused',un,'missing',miss)
