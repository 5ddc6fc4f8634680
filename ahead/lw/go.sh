#!/bin/bash
# go.sh ROUNDS NAME..
B=/work/h/ba/w; r=$1; shift; cd /work/h/v
for k in $(seq $r); do for n in "$@"; do printf "%-8s" $n; ./tc-$n 3 $B/W1 $B/W2 $B/W3 $B/W4; done; done
