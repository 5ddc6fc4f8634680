#!/usr/bin/env python3
"""The workloads W1 to W4 in a folder each: left.tab, right.tab, code.lab; joined.tab and lattice.tab, on which calls are timed alone; the listing in stdout.
W1s to W4s are of the same shape, with weights of both signs and no cycle below zero in the lattice.

  bench/workloads.py [FOLDER]      target/workloads unless told otherwise

W1 and W2 follow a rule. W3 (spelling corrections before a catalogue) and W4 (a dense random pair) were drawn once and are kept as text in bench/W3 and
bench/W4, in the form of docs/tables.md. The joined table and the lattice are made by the plain Python of tests/limits, so that what the library comes to
is held to something other than itself. The bytes are the same on each machine: DIGESTS has their sums.

The signs: in W1 the left loops, corrections, weigh 0 to 2, the right ones, a catalogue, 0 to 3, but one in eight, a house brand, has a rebate of 5. The line of
W2 gets weights from -20 to 20 by a rule. In W3 and W4 each state has an amount, at most the greatest weight on either
side of zero and 0 for the start, which arcs to it lose and arcs from it gain, as do final weights: so every cycle, and every accepting path, costs what it
did.
"""
import hashlib
import struct
import sys
from pathlib import Path

ROOT = Path(__file__).resolve().parents[1]
FOLDER = ROOT / "target" / "workloads"
sys.dont_write_bytecode = True
sys.path.insert(0, str(ROOT / "tests" / "limits"))

from lattice_model import applied, trimmed
from model import Arc, Final, Transducer, composed, decode, encode, split
from path_model import ring_below_zero

NAMES = ["W1", "W2", "W3", "W4"]
SIGNED = [f"{name}s" for name in NAMES]
FILES = ["left.tab", "right.tab", "code.lab", "joined.tab", "lattice.tab"]
LISTINGS = {
    "W1": "readings 99+\n",
    "W2": "readings endless\n",
    "W3": "readings 2\n0 8 1000\n1 9 1000 2000\n",
    "W4": "readings 99+\n",
}
LISTINGS.update({f"{name}s": text for name, text in LISTINGS.items()})
DIGESTS = {"W1": "f6d55163443a44ac", "W2": "d2d243c1c1f38c0f", "W3": "69ccefbbde67388f", "W4": "88cf020e1efb754a"}
DIGESTS.update({"W1s": "8463691d51f0368d", "W2s": "b7829f600be468c7", "W3s": "cf3552267b8b8c82", "W4s": "3cec319ee3964a2e"})


def table(n, start, finals, arcs):
    """Its bytes; finals are (state, weight), arcs (source, input, output, target, weight)."""
    finals, arcs = [Final(*x) for x in sorted(finals)], sorted((Arc(*x) for x in arcs), key=lambda a: a.source)
    return encode(Transducer(n, len(arcs), len(finals), start, finals, arcs))


def loops(count, reads, writes):
    """One final state with so many like arcs onto itself."""
    return table(1, 0, [(0, 0)], [(0, reads, writes, 0, 0)] * count)


def from_text(path):
    rows = [[int(x) for x in line.split()] for line in path.read_text().splitlines()]
    finals = [row for row in rows if len(row) == 2]
    arcs = [(source, reads, writes, target, weight) for source, target, reads, writes, weight in (row for row in rows if len(row) == 5)]
    n = 1 + max(max(row[0] for row in rows), max(arc[3] for arc in arcs))
    return table(n, rows[0][0], finals, arcs)


def drawn(name):
    folder = ROOT / "bench" / name
    code = tuple(int(x) for x in (folder / "code.txt").read_text().split())
    return from_text(folder / "left.txt"), from_text(folder / "right.txt"), code


def amount(i):
    """From -20 to 20, 0 for 0."""
    return (i * 29 + 20) % 41 - 20


def correction(i):
    """From 0 to 2."""
    return i % 3


def price(i):
    """From 0 to 3; a house brand is cheaper."""
    return -5 if i % 8 == 5 else i % 4


def weighed(data, weight):
    """A table whose arcs weigh what a rule says, by number."""
    t = decode(split(data)[0])
    return encode(t._replace(arcs=[x._replace(weight=weight(i)) for i, x in enumerate(t.arcs)]))


def shifted(data):
    """A table with weights of both signs in which every cycle and every accepting path costs what it did."""
    t = decode(split(data)[0])
    most = max(x.weight for x in t.arcs)
    of = [amount(s - t.start) * most // 20 for s in range(t.n)]
    finals = [x._replace(weight=x.weight + of[x.state]) for x in t.finals]
    return encode(t._replace(finals=finals, arcs=[x._replace(weight=x.weight + of[x.source] - of[x.target]) for x in t.arcs]))


def signed_parts(name):
    left, right, code = parts(name)
    if name == "W1":
        return weighed(left, correction), weighed(right, price), code
    if name == "W2":
        return weighed(left, amount), right, code
    return shifted(left), shifted(right), code


def parts(name):
    """The left table, the right table and the code of a workload."""
    if name in SIGNED:
        return signed_parts(name[:-1])
    if name == "W1":
        return loops(48, 1, 2), loops(64, 2, 3), (1,)
    if name == "W2":
        line = table(512, 0, [(64, 0)], [(s, 1, 0, s + 1, 0) for s in range(511)])
        return line, loops(1, 0, 7), (1,) * 64
    return drawn(name)


def look(name, lattice):
    """The lattice of a signed workload has weights of both signs and no cycle below zero."""
    weights = [x.weight for x in lattice.arcs]
    if not min(weights) < 0 < max(weights) or ring_below_zero(lattice):
        sys.exit(f"bench/workloads.py: {name} has not the signs it should have")


def make(folder=FOLDER):
    for name in NAMES + SIGNED:
        left, right, code = parts(name)
        joined = encode(composed(left, right)[0])
        lattice = encode(trimmed(applied(code, joined)[0])[0])
        if name in SIGNED:
            look(name, decode(split(lattice)[0]))
        content = [left, right, struct.pack(f"<{len(code)}H", *code), joined, lattice]
        digest = hashlib.sha256(b"".join(content)).hexdigest()[:16]
        if digest != DIGESTS[name]:
            sys.exit(f"bench/workloads.py: {name} has other bytes than it should: {digest}, not {DIGESTS[name]}")
        (folder / name).mkdir(parents=True, exist_ok=True)
        for file, data in zip(FILES, content):
            (folder / name / file).write_bytes(data)
        (folder / name / "stdout").write_text(LISTINGS[name])
    return folder


if __name__ == "__main__":
    print(f"{', '.join(NAMES + SIGNED)} are in {make(Path(sys.argv[1]) if len(sys.argv) > 1 else FOLDER)}")
