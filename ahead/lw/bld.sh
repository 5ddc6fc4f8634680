#!/bin/bash
for n in "$@"; do cd /work/h/lw && ./mklib /work/h/v/$n/crates /work/h/v/$n/L >/dev/null && gcc -O2 tc.c -o /work/h/v/tc-$n -L/work/h/v/$n/L -l:libforthwn.a && gcc -O2 ty.c -o /work/h/v/ty-$n -L/work/h/v/$n/L -l:libforthwn.a || head -5 /work/h/v/$n/L/err.txt; done
