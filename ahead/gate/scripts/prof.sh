#!/bin/bash
# prof.sh CRATE : check with a fresh incremental folder, list modules by time between saves
c=$1; cd /work/h/G; inc=/work/h/G.scratch/inc/$c; rm -rf $inc; mkdir -p $inc
own=/opt/rattle/on/x86_64; root=/work/h/G
f=crates/$c/src/lib.rt; [ -f crates/$c/src/main.rt ] && f=crates/$c/src/main.rt
deps=$(sed -n "s/^$c: *//p" crates.txt)
ex=""; for d in $deps; do if [ -d crates/$d ]; then ex="$ex --extern $d=$root/target/rlib/$d.rlib"; else ex="$ex --extern $d=$own/rlib/$d.rlib"; fi; done
date +%s.%N > /work/h/G.scratch/inc/$c.began
( time $own/bin/rattle check --crate-name $c $root/$f --extern std=$own/rlib/std.rlib $ex -L dependency=$root/target/rlib -L dependency=$own/rlib --antt-project /opt/rattle/logic/antt-project.json --logic-built $own/logic-built --incremental $inc ) > /work/h/G.scratch/inc/$c.out 2>&1
tail -5 /work/h/G.scratch/inc/$c.out
find $inc -type f -printf '%T@ %s %p\n' | sort -n > /work/h/G.scratch/inc/$c.files
wc -l /work/h/G.scratch/inc/$c.files
