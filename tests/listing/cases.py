"""The program `list` on paper 01's cases: it is run in folders made here, and its bytes are held to a text that the plain Python of
tests/limits computes. Each case has the first line written out by hand. Then the cascade, by the program `list_cascade`, on the same files and on some more.

    python3 -B tests/listing/cases.py [PROGRAM [PROGRAM]]     (those of tools/build list and tools/build list_cascade unless named)
"""
import subprocess
import sys
import tempfile
from pathlib import Path

ROOT = Path(__file__).resolve().parents[2]
sys.path.insert(0, str(ROOT / "tests/limits"))

from compose_cases import LAST_LEFT, LAST_RIGHT, REST, line, one_state
from model import ANY, WEIGHT
from rows import sound

import changed
from listed import MOST_READ, cascade_listing, labels, listing

LONGEST = 602996  # bytes of the longest text


def like_arcs(count, weight=5):
    """Arcs 1:2 from a start to a final state."""
    return sound(n=2, start=0, finals=((1, 0),), arcs=[(0, 1, 2, 1, weight)] * count)


def ladder(n):
    """A line of n states, the last one final, that hands 2 on in each and writes 7 from each to the next."""
    arcs = [x for s in range(n) for x in ((s, 2, 2, s, 0), (s, 0, 7, s + 1, 0))][:-1]
    return sound(n=n, start=0, finals=((n - 1, 0),), arcs=arcs)


def longest():
    """98 paths of 1,023 arcs, each with the longest label and the least weight, that read nothing."""
    arcs = [(0, 0, 65534, 1, -WEIGHT)] * 98 + [(s, 0, 65534, s + 1, -WEIGHT) for s in range(1, 1023)]
    return sound(n=1024, start=0, finals=((1023, -WEIGHT),), arcs=arcs)


TURN = one_state((1, 1, 2, 0))  # turns 1 into 2
COPY = one_state((1, 2, 2, 0))  # hands 2 on
ANY_TO_7 = sound(n=2, start=0, finals=((1, 0),), arcs=[(0, ANY, 7, 1, 0)])
ONE = labels(1)
EMPTY_RECORDS = bytes(MOST_READ)  # of kind 0, 4 bytes each
UP_TO_A_RECORD = (COPY + b"\2\0\0\0\0\0" + EMPTY_RECORDS)[:MOST_READ]


def cases():
    """What is tried, the first line, and the files; None is a file that is missing."""
    yield "paper 01's last case", "readings 1", LAST_LEFT, LAST_RIGHT, labels(1, 3)
    yield "no reading", "readings 0", LAST_LEFT, LAST_RIGHT, labels(1)
    yield "two like readings", "readings 2", like_arcs(2), COPY, ONE
    yield "98 readings", "readings 98", like_arcs(98), COPY, ONE
    yield "99 readings", "readings 99+", like_arcs(99), COPY, ONE
    yield "100 readings", "readings 99+", like_arcs(100), COPY, ONE
    yield "the largest weights", "readings 1", like_arcs(1, WEIGHT), COPY, ONE
    yield "the least weights", "readings 1", like_arcs(1, -WEIGHT), COPY, ONE
    yield "a cost of -7", "readings 2", like_arcs(2, -7), COPY, ONE
    yield "costs of -1 and 0", "readings 2", like_arcs(1, -1), sound(n=1, start=0, finals=((0, 0),), arcs=[(0, 2, 2, 0, 0), (0, 2, 3, 0, 1)]), ONE
    yield "a loop below zero that reads nothing", "readings endless", COPY, one_state((1, 0, 7, -1)), b""
    yield "a loop below zero that reads", "readings 1", one_state((1, 1, 2, -3)), one_state((1, 2, 2, -4)), ONE * 2
    yield "an empty code", "readings 1", COPY, COPY, b""
    yield "a missing code", "readings 1", COPY, COPY, None
    yield "an empty code where a symbol is wanted", "readings 0", like_arcs(1), COPY, b""
    yield "a loop that reads nothing", "readings endless", COPY, REST, b""
    yield "64 labels", "readings 1", TURN, COPY, ONE * 64
    yield "968 pairs in the lattice", "readings 99+", TURN, ladder(8), ONE * 64
    yield "3,072 arcs in the lattice", "readings 99+", one_state((48, 1, 2, 0)), COPY, ONE * 64
    yield "the longest listing", "readings 98", one_state(), longest(), b""
    yield "the largest labels", "readings 1", one_state((1, 65534, 65534, 0)), one_state((1, 65534, 65534, 0)), labels(65534)
    for what, _, after, left, right, code, _ in changed.cases():
        yield f"Point 6: {what}", after, left, right, code
    yield "two arcs for any symbol", "readings 2", one_state((1, 6, 6, 0)), one_state((1, ANY, ANY, 1), (1, 7, 8, 4), (1, ANY, 0, 2)), labels(6)
    yield "an arc for any symbol and an empty output", "readings 0", one_state((1, 6, 0, 0)), ANY_TO_7, labels(6)
    # Refusals: the left table, the right one, the composition, the string, its application.
    yield "left missing", "refused 2", None, COPY, ONE
    yield "right missing", "refused 2", COPY, None, ONE
    yield "all missing", "refused 2", None, None, None
    yield "3 bytes", "refused 1", COPY[:3], COPY, ONE
    yield "left before right", "refused 8", like_arcs(1, WEIGHT + 1), COPY[:3], ONE
    yield "18 of the left before 1 of the right", "refused 18", one_state((1, ANY, 2, 0)), COPY[:3], ONE
    yield "8 of the left before 18", "refused 8", one_state((1, ANY, 2, WEIGHT + 1)), COPY, ONE
    yield "18 before the code", "refused 18", one_state((1, ANY, ANY, 0)), COPY, ONE[:1]
    yield "right before the code", "refused 1", COPY, COPY[:3], ONE[:1]
    yield "513 states in a line", "refused 11", line(513), REST, ONE
    yield "11 before the code", "refused 11", line(513), REST, ONE[:1]
    yield "56 loops against 55", "refused 12", one_state((56, 1, 2, 0)), one_state((55, 2, 3, 0)), ONE
    yield "13 before the code", "refused 13", like_arcs(1, 600000), one_state((1, 2, 2, 400001)), labels(0)
    yield "-1,000,000 composed", "readings 1", like_arcs(1, -600000), one_state((1, 2, 2, -400000)), ONE
    yield "-1,000,001 composed", "refused 13", like_arcs(1, -600000), one_state((1, 2, 2, -400001)), ONE
    yield "-1,000,001", "refused 8", like_arcs(1, -WEIGHT - 1), COPY, ONE
    yield "an odd last byte", "refused 9", COPY, COPY, ONE + b"\1"
    yield "one byte", "refused 9", COPY, COPY, b"\1"
    yield "65 labels", "refused 9", TURN, COPY, ONE * 65
    yield "label 0", "refused 9", COPY, COPY, labels(1, 0)
    yield "label 65,535", "refused 9", COPY, COPY, labels(65535)
    yield "1,097 pairs in the lattice", "refused 11", TURN, ladder(9), ONE * 64
    yield "3,136 arcs in the lattice", "refused 12", one_state((49, 1, 2, 0)), COPY, ONE * 64
    # Only the first 65,536 bytes of a file count.
    yield "a table cut within a record, which is whole behind it", "refused 1", COPY + EMPTY_RECORDS, COPY, ONE
    yield "a table cut between records, with a byte behind it", "refused 2", UP_TO_A_RECORD + b"\0", COPY, ONE
    yield "a right table of too many bytes", "refused 1", COPY, COPY + EMPTY_RECORDS, ONE
    yield "a code of 65,537 bytes", "refused 9", COPY, COPY, ONE * (MOST_READ // 2) + b"\0"


def cascades():
    """What is tried where the code is applied first: cases that the two chains answer differently."""
    any_copy, wide = one_state((1, ANY, ANY, 1)), [one_state((40, 1, 2, 0)), one_state((40, 2, 3, 0))]
    yield "an arc for any symbol in the left table", "readings 1", any_copy, COPY, labels(2, 2)
    yield "arcs for any symbol in both tables", "readings 1", any_copy, any_copy, labels(65534)
    yield "named arcs before any in the left table", "readings 1", one_state((1, ANY, 7, 1), (1, 2, 2, 0)), COPY, labels(2)
    yield "18 does not arise, and 1 of the right", "refused 1", any_copy, COPY[:3], ONE
    yield "the right table before the code", "refused 1", COPY, COPY[:3], ONE[:1]
    yield "the code before the lattice", "refused 9", one_state((49, 1, 2, 0)), COPY, ONE * 64 + b"\0"
    yield "11 in the lattice", "refused 11", ladder(17), COPY, labels(2) * 64
    yield "11 in the lattice before 12 behind it", "refused 11", ladder(17), one_state((3072, 2, 2, 0)), labels(2) * 64
    yield "975 pairs in the lattice", "readings 0", ladder(15), COPY, labels(2) * 64
    yield "12 in the lattice", "refused 12", one_state((49, 1, 2, 0)), COPY, ONE * 64
    yield "12 behind the lattice", "refused 12", one_state((56, 1, 2, 0)), one_state((55, 2, 3, 0)), ONE
    yield "12 composed first, not with this code", "readings 0", one_state((56, 1, 2, 0)), one_state((55, 2, 3, 0)), labels(3)
    yield "11 behind the lattice", "refused 11", line(65), sound(n=17, start=0, finals=((16, 0),), arcs=[(s, 0, 7, s + 1, 0) for s in range(16)]), ONE * 64
    yield "13 behind the lattice", "refused 13", like_arcs(1, 600000), one_state((1, 2, 2, 400001)), ONE
    yield "13 composed first, not with this code", "readings 0", like_arcs(1, 600000), one_state((1, 2, 2, 400001)), labels(2)
    yield "a string where both tables have many arcs", "readings 99+", *wide, ONE
    yield "endless", "readings endless", COPY, REST, b""


def run(program, files):
    with tempfile.TemporaryDirectory() as folder:
        for name, data in zip(("left.tab", "right.tab", "code.lab"), files):
            if data is not None:
                Path(folder, name).write_bytes(data)
        return subprocess.run([program], cwd=folder, stdout=subprocess.PIPE, check=True, timeout=60).stdout


def main():
    named = sys.argv[1:]
    for name in ("list", "list_cascade")[len(named) :]:
        named.append(subprocess.run([ROOT / "tools/build", name], stdout=subprocess.PIPE, text=True, check=True).stdout.strip())
    program, cascade = (Path(x).resolve() for x in named)
    wrong = total = longest_met = 0
    tried = [(name, first, files, listing, program) for name, first, *files in cases()]
    tried += [(f"{name}, code first", None, files, cascade_listing, cascade) for name, _, *files in cases()]
    tried += [(f"{name}, code first", first, files, cascade_listing, cascade) for name, first, *files in cascades()]
    for name, first, files, model, runs in tried:
        want = model(*(data or b"" for data in files))
        if first and want.split("\n")[0] != first:
            sys.exit(f"{name}: the case says {first}, the model {want!r}")
        got = run(runs, files)
        total += 1
        longest_met = max(longest_met, len(got))
        if got != want.encode():
            print(f"{name}: expected {want.encode()[:80]}, printed {got[:80]}")
            wrong += 1
    if longest_met != LONGEST:
        print(f"the longest text has {longest_met} bytes, not {LONGEST}")
        wrong += 1
    if wrong:
        sys.exit(1)
    print(f"{total} listings as expected")


main()
