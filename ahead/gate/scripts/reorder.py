# Usage: reorder.py ROOT NAME ..: crates.txt in this order, lines as they are.
import sys
p=sys.argv[1]+'/crates.txt';order=sys.argv[2:]
L=open(p).read().splitlines()
head=[l for l in L if l.startswith('#')];rows={l.split(':')[0]:l for l in L if l.strip() and not l.startswith('#')}
assert sorted(order)==sorted(rows),set(order)^set(rows)
open(p,'w').write('\n'.join(head+[rows[n] for n in order])+'\n')
