#!/bin/bash
# mk.sh NAME SEDSCRIPT(for explore/src/lib.rt) : variant from i12
rm -rf /work/h/v/$1; mkdir -p /work/h/v/$1; cp -r ${BASE:-/work/h/i12/crates} /work/h/v/$1/crates
cd /work/h/v/$1; python3 - "$2" <<'P'
import sys
p='crates/explore/src/lib.rt'; t=open(p).read()
for pair in sys.argv[1].split('@@'):
    if not pair: continue
    a,b=pair.split('=>')
    assert t.count(a)==1,(a,t.count(a)); t=t.replace(a,b)
open(p,'w').write(t)
P
cd /work/h/lw && ./mklib /work/h/v/$1/crates /work/h/v/$1/L >/dev/null && gcc -O2 tc.c -o /work/h/v/tc-$1 -L/work/h/v/$1/L -l:libforthwn.a
