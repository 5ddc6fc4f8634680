#!/bin/bash
# edit.sh CRATE LABEL [rootdir]: apply one edit to a copy outside the clone, check it, print the first errors
c=$1; l=$2; root=/work/h/G; own=/opt/rattle/on/x86_64
w=/work/h/G.scratch/edits/$c/$l; rm -rf $w; mkdir -p $w
for p in src specs proofs; do [ -d $root/crates/$c/$p ] && cp -R $root/crates/$c/$p $w/$p; done
python3 - "$root/crates/$c/must-fail/$l.edit" "$w" <<'P'
import sys
e,w=sys.argv[1:]
f=old=None
for line in open(e):
    line=line.rstrip('\n')
    if line.startswith('file: '): f=w+'/'+line[6:]
    elif line.startswith('old: '): old=line[5:]
    elif line.startswith('new:'):
        new=line[4:]; new=new[1:] if new.startswith(' ') else new
        t=open(f).read(); assert t.count(old)==1,(old,t.count(old)); open(f,'w').write(t.replace(old,new))
P
f=$w/src/lib.rt; [ -f $w/src/main.rt ] && f=$w/src/main.rt
deps=$(sed -n "s/^$c: *//p" $root/crates.txt)
ex=""; for d in $deps; do if [ -d $root/crates/$d ]; then ex="$ex --extern $d=$root/target/rlib/$d.rlib"; else ex="$ex --extern $d=$own/rlib/$d.rlib"; fi; done
b=$(date +%s)
$own/bin/rattle check --crate-name $c $f --extern std=$own/rlib/std.rlib $ex -L dependency=$root/target/rlib -L dependency=$own/rlib --antt-project /opt/rattle/logic/antt-project.json --logic-built $own/logic-built > $w/.log 2>&1
s=$?
echo "== $c/$l status $s $(( $(date +%s) - b )) s $(tail -1 $w/.log | cut -c1-40)"
grep -v "^library\|^fn .*: proved" $w/.log | head -${3:-6} | cut -c1-420
