#!/usr/bin/env python3
"""The script ./readings: its standard output, what it tells on standard error, and its exit status, in folders made here.

    python3 -B tests/readings/cases.py

What the listing says is tested in tests/listing; here the words beside it are: which file is missing, which file or step a refusal comes from.
"""
import subprocess
import sys
import tempfile
from pathlib import Path

ROOT = Path(__file__).resolve().parents[2]
sys.path.insert(0, str(ROOT / "tests/limits"))

from compose_cases import LAST_LEFT, LAST_RIGHT, REST, line, one_state
from model import WEIGHT
from rows import sound

COPY, TURN = one_state((1, 2, 2, 0)), one_state((1, 1, 2, 0))
FALLING = sound(n=2, start=0, finals=((1, 0), (0, 0)), arcs=())
HEAVY = sound(n=1, start=0, finals=((0, WEIGHT + 1),), arcs=())
ANY = one_state((1, 65535, 65535, 0))
DEAR = one_state((1, 2, 2, WEIGHT))
DEARER = one_state((1, 2, 2, 1))
REBATE, MORE_REBATE = one_state((1, 2, 2, -WEIGHT)), one_state((1, 2, 2, -1))
ONE = b"\1\0"
BOTH = "composing left.tab and right.tab"
APPLYING, BEHIND = "applying code.lab to left.tab", "composing what code.lab makes of left.tab with right.tab"


def rungs(n):
    """A line of n states, the last one final, that hands 2 on in each and writes 7 from each to the next."""
    return sound(n=n, start=0, finals=((n - 1, 0),), arcs=[x for s in range(n) for x in ((s, 2, 2, s, 0), (s, 0, 7, s + 1, 0))][:-1])



def words_of(number):
    """The words of a refusal behind a colon, or nothing where there is no list of them."""
    path = ROOT / "bindings/refusals.txt"
    rows = [row.split("\t") for row in path.read_text().splitlines()] if path.is_file() else []
    return "".join(f": {row[2]}" for row in rows if row[0] == str(number))


# What is tried; the refusal and where it comes from, or nothing; the three files, None for one that is missing.
CASES = [
    ("paper 01's last case", None, LAST_LEFT, LAST_RIGHT, b"\1\0\3\0"),
    ("a missing code", None, COPY, COPY, None),
    ("the left table", (6, "in left.tab"), FALLING, HEAVY, ONE),
    ("the left table before the right one, whose number is lower", (8, "in left.tab"), HEAVY, FALLING, ONE),
    ("an arc for any symbol in the left table", (18, "in left.tab"), ANY, FALLING, ONE),
    ("an arc for any symbol in the right table", None, COPY, ANY, b"\2\0"),
    ("the right table", (6, "in right.tab"), COPY, FALLING, b"\1"),
    ("the same refusal of both", (6, "in left.tab"), FALLING, FALLING, ONE),
    ("a left table that is missing", (2, "in left.tab"), None, COPY, ONE),
    ("a right table that is missing", (2, "in right.tab"), COPY, None, ONE),
    ("all are missing", (2, "in left.tab"), None, None, None),
    ("too many states, composing", (11, BOTH), line(513), REST, b"\1"),
    ("too many arcs, composing", (12, BOTH), one_state((56, 1, 2, 0)), one_state((55, 2, 3, 0)), ONE),
    ("weights, composing", (13, BOTH), DEAR, DEARER, ONE),
    ("weights below, composing", (13, BOTH), REBATE, MORE_REBATE, ONE),
    ("a weight below, in the right table", (8, "in right.tab"), COPY, one_state((1, 2, 2, -WEIGHT - 1)), ONE),
    ("a rebate", None, COPY, REBATE, b"\2\0"),
    ("the code", (9, "in code.lab"), COPY, COPY, b"\0\0"),
    ("too many states, applying", (11, "applying code.lab"), TURN, rungs(9), ONE * 64),
    ("too many arcs, applying", (12, "applying code.lab"), one_state((49, 1, 2, 0)), COPY, ONE * 64),
    ("a code that is read in part", (9, "in code.lab"), COPY, COPY, ONE * 40000),
]


# The same of the cascade, `--cascade`.
CASCADES = [
    ("paper 01's last case", None, LAST_LEFT, LAST_RIGHT, b"\1\0\3\0"),
    ("a missing code", None, COPY, COPY, None),
    ("the left table", (6, "in left.tab"), FALLING, HEAVY, ONE),
    ("an arc for any symbol in the left table", None, ANY, COPY, b"\2\0"),
    ("the right table behind an arc for any symbol", (6, "in right.tab"), ANY, FALLING, ONE),
    ("the right table before the code", (6, "in right.tab"), COPY, FALLING, b"\1"),
    ("a left table that is missing", (2, "in left.tab"), None, COPY, ONE),
    ("the code before the tables' sizes", (9, "in code.lab"), line(513), REST, b"\1"),
    ("states that the code does not reach", None, line(513), REST, ONE),
    ("too many states, applying", (11, APPLYING), rungs(17), COPY, b"\2\0" * 64),
    ("too many arcs, applying", (12, APPLYING), one_state((49, 1, 2, 0)), COPY, ONE * 64),
    ("too many states, composing", (11, BEHIND), line(65), rungs(17), ONE * 64),
    ("too many arcs, composing", (12, BEHIND), one_state((56, 1, 2, 0)), one_state((55, 2, 3, 0)), ONE),
    ("weights, composing", (13, BEHIND), DEAR, DEARER, b"\2\0"),
    ("weights that the code does not reach", None, DEAR, DEARER, ONE),
]


def told(folder, refused, files):
    """What standard error must have."""
    lines = []
    for name, data in files.items():
        if data is None:
            lines.append(f"no {name} in {folder}, counted as empty")
        elif len(data) > 65536:
            lines.append(f"{name} has more than 65,536 bytes, of which the first 65,536 are read")
    if refused:
        lines.append(f"refused {refused[0]}{words_of(refused[0])}, {refused[1]}")
    return "".join(f"readings: {x}\n" for x in lines)


def run(*words):
    return subprocess.run([ROOT / "readings", *words], capture_output=True, text=True, timeout=600)


def wrong(got, status, first, said):
    if (got.returncode, got.stdout.split("\n")[0], got.stderr) == (status, first or got.stdout.split("\n")[0], said):
        return None
    return f"status {got.returncode}, printed {got.stdout[:60]!r}, told {got.stderr!r}, and not {status}, {first!r}, {said!r}"


def tried():
    """Each case with what is wrong about it, if anything."""
    run(), run("--cascade")  # where something is still to be proved, these tell of it
    for words, name, refused, *data in [((), *x) for x in CASES] + [(("--cascade",), *x) for x in CASCADES]:
        with tempfile.TemporaryDirectory() as folder:
            folder = Path(folder).resolve()
            files = dict(zip(("left.tab", "right.tab", "code.lab"), data))
            for file, content in files.items():
                if content is not None:
                    (folder / file).write_bytes(content)
            first = f"refused {refused[0]}" if refused else None
            yield " ".join([*words, name]), wrong(run(*words, folder), 3 if refused else 0, first, told(folder, refused, files))
    yield "no folder named", wrong(run(), 0, "readings 2", "")
    yield "--cascade, no folder named", wrong(run("--cascade"), 0, "readings 2", "")
    yield "--cascade, no such folder", wrong(run("--cascade", "/nowhere"), 2, None, "readings: no folder /nowhere\n")
    yield "no such folder", wrong(run("/nowhere"), 2, None, "readings: no folder /nowhere\n")
    yield "an option", wrong(run("-x"), 2, None, "readings: no option -x; ./readings --help tells how it is used\n")


def main():
    results = list(tried())
    bad = [f"./readings, {name}: {why}" for name, why in results if why]
    print("\n".join(bad) or f"./readings: {len(results)} cases as expected")
    sys.exit(1 if bad else 0)


main()
