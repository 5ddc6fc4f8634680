# Usage: docs.py ROOT, behind split.py: docs/MAP.md, README.md and docs/CHANGING.md follow.
import re,sys,os,json,subprocess
from pathlib import Path
ROOT=Path(sys.argv[1]);R=str(ROOT/'crates')+'/'
def names(f):
    t=open(f).read()
    return set(re.findall(r'(?m)^\s*(?:(?:unfoldable|abbrev|pub|record|data)\s+)*([^\s:({]+)(?=[\s:({])',t))
lat={};lis={}
for m in ['Apply','Pack']:
    for n in names(R+f'apply/specs/{m}.antt'): lat[f'{m}.{n}']=['apply',f'{m}.{n}']
for n in ['one','next','arc-keyed','Applicable','State-in']: lat['Applying.'+n]=['apply','Served.'+n]
for m in ['AppliedSteps','PackParts','ServedArcs','Symbols']:
    for n in names(R+f'apply/proofs/{m}.antt'):
        if m=='PackParts': lat.setdefault('Pack.'+n,['apply','PackParts.'+n])
        else: lat[f'{m}.{n}']=['apply',f'{m}.{n}']
for f in ['string_ok','symbol_at','moved','take_step','serve']: lat['applying/'+f]=['apply','serving/'+f]
for f in ['pack','unpack']: lat['packing/'+f]=['apply','packing/'+f]
inner='PathsCounted' if os.path.exists(R+'text/specs/PathsCounted.antt') else 'Walkable'
for m in ['Text',inner]:
    for n in names(R+f'text/specs/{m}.antt'): lis[f'{m}.{n}']=['text',f'{m}.{n}']
for f in os.listdir(R+'text/proofs'):
    if f.endswith('.antt') and f!='Lib.antt':
        for n in names(R+'text/proofs/'+f): lis[f[:-5]+'.'+n]=['text',f[:-5]+'.'+n]
for d in os.listdir(R+'text/proofs/lines'): lis['lines/'+d]=['text','lines/'+d]
for d in os.listdir(R+'text/proofs/writing'): lis['text/'+d.lstrip('+')]=['text','writing/'+d.lstrip('+')];lis['text/'+d]=['text','writing/'+d]
moved={'lattice':lat,'listing':lis}
CRATES=sorted(p.name for p in (ROOT/'crates').iterdir() if p.is_dir())
OLD=[c for c in CRATES if c not in('apply','text')]
WORD=re.compile(r"`([^`]+)`|([A-Za-z_]+)")
p=ROOT/'docs/MAP.md';out=[];inside=False
for line in p.read_text().split('\n'):
    if not line.startswith('|'): inside=False
    elif line.startswith('| § |'): inside=True
    elif inside and not line.startswith('|---'):
        nc=[]
        for cell in line.split('|'):
            res='';pos=0;orig=emit=None;toks=list(WORD.finditer(cell))
            for k,f in enumerate(toks):
                name,word=f.groups()
                if word is not None:
                    if word in OLD:
                        orig=word;nxt=toks[k+1] if k+1<len(toks) else None
                        if nxt and nxt.group(1) and cell[f.end():nxt.start()]==' ' and nxt.group(1) in moved.get(word,{}):
                            tgt=moved[word][nxt.group(1)][0];res+=cell[pos:f.start()]+tgt;pos=f.end();emit=tgt;continue
                        emit=word
                    elif word in CRATES: emit=word  # the words text and apply in prose are crates' names to the check
                    continue
                new=moved.get(orig,{}).get(name);tgt,nn=new if new else (orig,name)
                needs=bool(re.fullmatch(r"[A-Z][A-Za-z]*\.[^\s.`]+",name) or re.fullmatch(r"[a-z_]+/\+?[a-z_0-9]+",name))
                res+=cell[pos:f.start()]
                if needs and tgt and tgt!=emit: res+=tgt+' ';emit=tgt
                res+='`'+nn+'`';pos=f.end()
            res+=cell[pos:];nc.append(res)
        line='|'.join(nc)
    out.append(line)
t='\n'.join(out).replace('`lattice::State`','`apply::State`').replace('in the apply `Pack.pack`','of lattice states apply `Pack.pack`')
p.write_text(t)
p=ROOT/'README.md';s=p.read_text()
def row(s,start,new):
    i=s.find(start)
    if i<0: print('README: no row',start); return s
    j=s.index('\n',i);print('was:',s[i:j]);return s[:i]+new+s[j:]
a,b=s.split('### What a caller must believe',1)
a=row(a,'| `lattice` |','| `apply` | the states and steps of applying a string; packed states, the arcs of a state that fit a symbol |\n| `lattice` | applying a string: the lattice, trimmed, with origins |')
a=row(a,'| `listing`, `list` |','| `text` | the text of the listing of one transducer, byte by byte |\n| `listing`, `list` | the listing of two transducers and a code; the program that prints it |')
b=row(b,'| `lattice` |','| `apply` | `Apply` (lattice states, their steps) | | `Pack`, `Served` |\n| `lattice` | `Lattice`, `ApplyEntry` | `Lattice.Reads-one-to-one` | `Applying` |')
b=row(b,'| `listing` |',f'| `text` | `Text` (but `Wrote`, `Whole`) | | `{inner}`, the rest of `Text` |\n| `listing` | `Code.labels-in`, `Entry` | | the rest of `Code` |')
p.write_text(a+'### What a caller must believe'+b)
p=ROOT/'docs/CHANGING.md';s=p.read_text()
for x,y in [("names listing `Text.many-word`, the function listing `lines/put_counted` and the tests.","names text `Text.many-word`, the function text `lines/put_counted` and the tests."),
 ("stood in `listed.rt`, and the crate `printed` was not there.","stood in `listed.rt` of `listing`, and the crates `text` and `printed` were not there."),
 ("In `crates/listing/src/lines.rt` the bytes","In `crates/text/src/lines.rt` the bytes"),("`rt dev listing` refuses","`rt dev text` refuses"),
 ("In `crates/listing/specs/Text.antt`:","In `crates/text/specs/Text.antt`:"),("`rt dev listing` ends in `logic=proved functions=14`","`rt dev text` ends in `logic=proved` (then of `listing`, 14 functions)"),
 ("the crates above `listing`: `printed`, `starred`, `list` and the entries for C.","the crates above `text`: `listing`, `printed`, `starred`, `list` and the entries for C."),
 ("The first proves these four and runs `list`.","The first proves these and runs `list`."),("`crates/listing/must-fail/count_of_99_listed.edit`:","`crates/text/must-fail/count_of_99_listed.edit`:")]:
    if s.count(x)!=1: print('CHANGING: not there once:',x[:60])
    s=s.replace(x,y)
p.write_text(s)
p=ROOT/'docs/DECISIONS.md';s=p.read_text()
x="`relax` below `settle` and `distance`, `tally` and `tell` below `paths`."
if x in s: s=s.replace(x,"`relax` below `settle` and `distance`, `tally` and `tell` below `paths`,\n  `apply` below `lattice`, `text` below `listing`.")
s=s.replace('`lattice::State`','`apply::State`');p.write_text(s)
