"""The answers that Point 6 of paper 02 changed, each as two tables and a code: what is listed where an arc for any symbol fits each symbol (Point 5), and
where it fits only those that no arc of its state names. Both are by the plain Python of tests/limits; cases.py has the program print the second.

    python3 -B tests/listing/changed.py [--check]      writes docs/requests/06-changed-answers.md, or looks whether it is that
"""
import struct
import sys
from contextlib import contextmanager
from pathlib import Path

ROOT = Path(__file__).resolve().parents[2]
sys.dont_write_bytecode = True
sys.path.insert(0, str(ROOT / "tests/limits"))

import lattice_model
import model
from compose_cases import NOWHERE, hidden_loop, hiding, one_state, sixes
from lattice_cases import EXAMPLE
from model import ANY, composed, decode, encode, split
from path_cases import lattice_of
from path_model import TELL_LEAST, nth_conditions, shortest_path

from listed import labels, listing

DOCUMENT = ROOT / "docs/requests/06-changed-answers.md"
CACHED = [f for module in (model, lattice_model) for f in vars(module).values() if hasattr(f, "cache_clear")]


@contextmanager
def as_before():
    """With an arc for any symbol that fits each symbol."""
    now = model.fits
    model.fits = lattice_model.fits = lambda t, arc, symbol: symbol != 0 and arc.input in (symbol, ANY)
    for f in CACHED:
        f.cache_clear()
    try:
        yield
    finally:
        model.fits = lattice_model.fits = now
        for f in CACHED:
            f.cache_clear()


COPY = one_state((1, 6, 6, 0), (1, 7, 7, 0))
SIX, SEVEN, NONE, BAD = labels(6), labels(7), b"", labels(0)
LINE = "a line of 513 states, the last one final, with {} 1:6 of weight {} from each to the next"
TWO = "two final states: {} 6:6 of weight {} on the start, an arc <any>:<any> to the other, and a loop <any>:<any> there"
ONE = "one final state with {}"


def cases():
    """What changes; the first line before and after; left, right and code; and the two tables in words where they are long."""
    yield "A count that falls, and a least cost that rises: paper 02's example, code 6", "readings 2", "readings 1", COPY, EXAMPLE, SIX, ()
    yield "A composed table that loses an arc, and a reading that stays: the same tables, code 7", "readings 1", "readings 1", COPY, EXAMPLE, SEVEN, ()
    yield "A code that loses its last reading, because the named arc leads nowhere", "readings 1", "readings 0", COPY, NOWHERE, SIX, ()
    yield "Refusal 11 that vanishes", "refused 11", "readings 0", sixes(513), hiding(1), NONE, (LINE.format("an arc", 0), TWO.format("a loop", 0))
    yield ("Refusal 11 that gives way to 12", "refused 11", "refused 12", sixes(513, 4), hiding(2), NONE,
           (LINE.format("four arcs", 0), TWO.format("two loops", 0)))
    yield ("Refusal 11 that gives way to 13", "refused 11", "refused 13", sixes(513, 1, 600000), hiding(1, 400001), NONE,
           (LINE.format("an arc", 600000), TWO.format("a loop", 400001)))
    yield ("Refusal 12 that vanishes", "refused 12", "readings 0", one_state((56, 1, 6, 0)), one_state((1, 6, 6, 0), (55, ANY, ANY, 0)), SIX,
           (ONE.format("56 loops 1:6"), ONE.format("a loop 6:6 and 55 loops <any>:<any>")))
    yield ("Refusal 12 that gives way to 13", "refused 12", "refused 13", one_state((56, 1, 6, 600000)),
           one_state((1, 6, 6, 400001), (55, ANY, ANY, 0)), SIX,
           (ONE.format("56 loops 1:6 of weight 600000"), ONE.format("a loop 6:6 of weight 400001 and 55 loops <any>:<any>")))
    yield "Refusal 13 that vanishes", "refused 13", "readings 1", one_state((1, 6, 6, 600000)), one_state((1, 6, 6, 0), (1, ANY, 7, 400001)), SIX, ()
    yield "Refusal 13 that gives way to 9", "refused 13", "refused 9", one_state((1, 6, 6, 600000)), one_state((1, 6, 6, 0), (1, ANY, 7, 400001)), BAD, ()
    yield "Refusal 14 that vanishes: infinitely many readings become two", "readings endless", "readings 2", *hidden_loop(1), NONE, ()


def text(data):
    """A table in the form of docs/tables.md."""
    t = decode(split(data)[0])
    name = lambda label: "<any>" if label == ANY else str(label)
    return [f"{a.source} {a.target} {name(a.input)} {name(a.output)} {a.weight}" for a in t.arcs] + [f"{f.state} {f.weight}" for f in t.finals]


def size(left, right):
    t = composed(left, right)[0]
    return t.n, len(t.arcs)


def third(data):
    """What the third path, that of k 2, of a lattice is refused by."""
    return f"refused by {nth_conditions(data, 2, TELL_LEAST)[0]}"


def cheapest(data):
    """What the shortest path of a lattice costs, or is refused by."""
    number, told, _ = shortest_path(data, {x: [0] * cells for x, cells in TELL_LEAST.items()})
    return f"refused by {number}" if number else f"cost {told[0]}"


def calls():
    """What a call on a lattice tells: what changes, of which tables and code, the limit case that has the call tell what is told now, and how it is told."""
    joined = lambda weight: lattice_of((), encode(composed(*hidden_loop(weight))[0]))
    yield ("Refusal 14 that gives way to 15: the third reading of the same", "Tables and code of the last row; k is 2.",
           "path, 15 in the place of 14 by a hidden arc", "the k-th path", lambda: third(joined(1)))
    yield ("Refusal 19 that vanishes", "The same with weight -1 in the left table.", "shortest path, 19 that a hidden arc would give", "the shortest path",
           lambda: cheapest(joined(-1)))
    yield ("A shortest path that gives way to 16", "The right table of the code that loses its last reading, and code 6 applied to it.",
           "shortest path, 16 where only a hidden arc leads on", "the shortest path", lambda: cheapest(lattice_of((6,), NOWHERE)))


OPENING = """\
Against Point 5, where an arc for any symbol fits each symbol, also one that another arc of its state names. Each row is executed: `tests/listing/cases.py`
has the program print what is listed now, the last three are cases of the program `limits`, and this page is what `tests/listing/changed.py` writes, which the
gate compares. Both answers are those of the model in Python. Tables are in the form of [tables.md](../tables.md); long ones are told in words. A code that is
applied to such a table directly loses the same arcs: `tests/limits/lattice_cases.py` ("hidden arcs" in the names of its cases).""".splitlines()


def document():
    out = ["# Point 6: answers that changed", "", *OPENING, ""]
    for what, before, after, left, right, code, words in cases():
        with as_before():
            old, (old_states, old_arcs) = listing(left, right, code), size(left, right)
        new, (new_states, new_arcs) = listing(left, right, code), size(left, right)
        for said, got in ((before, old), (after, new)):
            if got.splitlines()[0] != said:
                sys.exit(f"{what}: the row says {said}, the model {got.splitlines()[0]}")
        string = struct.unpack(f"<{len(code) // 2}H", code)
        out += [f"## {what}", ""]
        for side, data, told in zip(("left", "right"), (left, right), words or (None, None)):
            if told:
                out += [f"{side}: {told}.", ""]
            else:
                out += [f"{side}:", "", "```", *text(data), "```", ""]
        out += [f"code: {' '.join(map(str, string)) or 'empty'}", "", "| | composed states | composed arcs | listing |", "|---|---:|---:|---|",
                f"| before | {old_states:,} | {old_arcs:,} | {', '.join(f'`{x}`' for x in old.splitlines())} |",
                f"| after | {new_states:,} | {new_arcs:,} | {', '.join(f'`{x}`' for x in new.splitlines())} |", ""]
    for what, tables, case, call, told in calls():
        with as_before():
            old = told()
        out += [f"## {what}", "", f"{tables} In `crates/limits`: `{case}`.", "", f"| | {call} |", "|---|---|", f"| before | {old} |",
                f"| after | {told()} |", ""]
    return "\n".join(out)


def main():
    want = document()
    if sys.argv[1:] == ["--check"]:
        if not DOCUMENT.is_file() or DOCUMENT.read_text(encoding="utf-8") != want:
            sys.exit("docs/requests/06-changed-answers.md is not what tests/listing/changed.py gives: run it and look at the difference")
        print("docs/requests/06-changed-answers.md: as tests/listing/changed.py gives it")
    else:
        DOCUMENT.write_text(want, encoding="utf-8")


if __name__ == "__main__":
    main()
