#!/usr/bin/env python3
"""A catalogue of 280 codes over 36 symbols with a correction table for one slip: left.tab, right.tab, codes.lab and typed.lab in a folder; right-5.tab
and right-10.tab have the first 5 and 10 codes.

  bench/catalogue.py [FOLDER]      target/catalogue unless told otherwise
  bench/catalogue.py --sizes       states and arcs of the correction table composed with the first 5, the first 10 and all 280 codes

The correction table never gives one code twice. State 0 has seen no slip: it copies a symbol, or takes another one for it, a symbol too many, or one too few.
Where a symbol stands twice in a row, it would not matter which of the two was too many or is missing; so behind such a slip comes a state of its own for
each symbol, from which the next symbol is not that one. From there on, and after a wrong symbol, symbols are only copied.
The catalogue is a tree of its codes, each with an arc behind it that reads nothing and writes the number of its part.

codes.lab has the codes and typed.lab one code with a slip for each, as runs of labels with a 0 behind each run.
"""
import random
import struct
import sys
from collections import deque
from pathlib import Path

ROOT = Path(__file__).resolve().parents[1]
FOLDER = ROOT / "target" / "catalogue"
SYMBOLS = range(1, 37)
WRONG, TOO_MANY, TOO_FEW = 10, 12, 14  # what a slip costs
FIRST_PART = 1000  # the number of the first code's part
SEED, CODES, LENGTHS = 104246, 280, (2, 5)  # of this seed the first 5 and 10 codes make trees of 20 and 28 states


def corrections():
    """States, finals and arcs: 0 no slip yet, 1 symbols are copied, 1 + x the next symbol is not x."""
    clean, copying = 0, 1
    not_next = lambda x: 1 + x
    arcs = [(clean, x, x, clean, 0) for x in SYMBOLS]
    arcs += [(clean, x, y, copying, WRONG) for x in SYMBOLS for y in SYMBOLS if x != y]
    arcs += [(clean, x, 0, not_next(x), TOO_MANY) for x in SYMBOLS]
    arcs += [(clean, 0, x, not_next(x), TOO_FEW) for x in SYMBOLS]
    arcs += [(copying, x, x, copying, 0) for x in SYMBOLS]
    arcs += [(not_next(x), y, y, copying, 0) for x in SYMBOLS for y in SYMBOLS if x != y]
    states = 2 + len(SYMBOLS)
    return states, [(s, 0) for s in range(states)], arcs


def codes(count=CODES):
    """The first so many codes: different ones, of 2 to 5 symbols."""
    dice, found = random.Random(SEED), []
    while len(found) < count:
        code = tuple(dice.randint(SYMBOLS[0], SYMBOLS[-1]) for _ in range(dice.randint(*LENGTHS)))
        if code not in found:
            found.append(code)
    return found


def catalogue(of):
    """States, finals and arcs of the tree of some codes, with a last state for each code."""
    nodes, arcs = {(): 0}, []
    for code in of:
        for i in range(len(code)):
            if code[: i + 1] not in nodes:
                nodes[code[: i + 1]] = len(nodes)
                arcs.append((nodes[code[:i]], code[i], 0, nodes[code[: i + 1]], 0))
    ends = range(len(nodes), len(nodes) + len(of))
    arcs += [(nodes[code], 0, FIRST_PART + i, ends[i], 0) for i, code in enumerate(of)]
    return len(nodes) + len(of), [(s, 0) for s in ends], arcs


def slips(code):
    """What may be typed for a code with exactly one slip."""
    out = {code[:i] + (x,) + code[i + 1:] for i in range(len(code)) for x in SYMBOLS}
    out |= {code[:i] + code[i + 1:] for i in range(len(code))}
    out |= {code[:i] + (x,) + code[i:] for i in range(len(code) + 1) for x in SYMBOLS}
    return sorted(out - {code})


def typed():
    """For each code one that has a slip, drawn once."""
    dice = random.Random(SEED + 1)
    return [dice.choice(slips(code)) for code in codes()]


def table(states, finals, arcs):
    arcs = sorted(arcs, key=lambda a: a[0])
    out = struct.pack("<6H", 8, 1, states, len(arcs), len(finals), 0)
    out += b"".join(struct.pack("<3Hi", 6, 2, *x) for x in finals)
    return out + b"".join(struct.pack("<6Hi", 12, 3, *a) for a in arcs)


def composed_size(left, right):
    """States and arcs of a composition by the epsilon-sequencing filter, whatever they are."""
    by_source = [{}, {}]
    for side, (_, _, arcs) in zip(by_source, (left, right)):
        for a in arcs:
            side.setdefault(a[0], []).append(a)
    met, open_, arcs = {(0, 0, 0)}, deque([(0, 0, 0)]), 0
    while open_:
        p, q, mark = open_.popleft()
        steps = [(a[3], q, 0) for a in by_source[0].get(p, []) if a[2] == 0 and mark == 0]
        steps += [(a[3], b[3], 0) for a in by_source[0].get(p, []) if a[2] for b in by_source[1].get(q, []) if b[1] == a[2]]
        steps += [(p, b[3], 1) for b in by_source[1].get(q, []) if b[1] == 0]
        arcs += len(steps)
        for to in steps:
            if to not in met:
                met.add(to)
                open_.append(to)
    return len(met), arcs


def runs(of):
    return b"".join(struct.pack(f"<{len(x) + 1}H", *x, 0) for x in of)


def make(folder=FOLDER):
    folder.mkdir(parents=True, exist_ok=True)
    files = {f"right-{count}.tab": table(*catalogue(codes(count))) for count in (5, 10)}
    files.update({"left.tab": table(*corrections()), "right.tab": table(*catalogue(codes())), "codes.lab": runs(codes()), "typed.lab": runs(typed())})
    for name, data in files.items():
        (folder / name).write_bytes(data)


def main():
    if sys.argv[1:] == ["--sizes"]:
        left = corrections()
        print(f"correction table: {left[0]} states, {len(left[2])} arcs")
        for count in (5, 10, CODES):
            right = catalogue(codes(count))
            print(f"catalogue of {count} codes: {right[0]} states, {len(right[2])} arcs; composed {'%d states, %d arcs' % composed_size(left, right)}")
        return
    make(Path(sys.argv[1]) if len(sys.argv) > 1 else FOLDER)


if __name__ == "__main__":
    main()
