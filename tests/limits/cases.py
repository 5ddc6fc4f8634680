#!/usr/bin/env python3
"""The limit cases of papers 01 and 02, with the refusal of each written out by hand: here those of reading and writing.

  cases.py           writes crates/limits/stdin, the cases, and crates/limits/stdout, what the program must print
  cases.py --check   only compares these two files with what it would write
"""
import sys
from pathlib import Path

from compose_cases import compose_rows
from lattice_cases import apply_rows, trim_rows
from model import ARCS, STATES, arc_record, final_record, head_record, record
from path_cases import count_rows, distance_rows, nth_rows, shortest_rows
from rows import (
    ARC_WEIGHTS_SHORT, EXACT, FIELDS_SHORT, NONE, OUT_SHORT, SMALLEST, STATES_SHORT, WEIGHTS_SHORT,
    fst, numbers_of, read_row, round_trip_row, runs_of, sound, write_row,
)

ONE_ARC = (1, 1, 1, 0)
AT_ENDS = ((0, 1, 2, 1, 1000000), (0, 1, 2, 1, -1000000), (1, 3, 0, 2, -1), (1, 0, 4, 3, 0))
WEIGHED = sound(n=1, start=0, finals=(), arcs=((0, 1, 2, 0, 0),))[:-4]  # one arc, without its weight


def largest():
    finals = tuple((s, (s * 977) % 2000001 - 1000000) for s in range(STATES))
    arcs = tuple((i // 3, i % 65535, (i * 7) % 65535, (i * 5) % STATES, (i * 331) % 2000001 - 1000000) for i in range(ARCS))
    return sound(n=STATES, start=STATES - 1, finals=finals, arcs=arcs)


def read_rows():
    r = read_row
    yield r(2, "0 bytes", b"")
    yield r(1, "1 byte", b"\x08")
    yield r(1, "2 bytes", b"\x08\x00")
    yield r(1, "3 bytes", b"\x08\x00\x01")
    yield r(0, "the smallest transducer", SMALLEST)
    yield r(0, "a sound transducer", sound())
    yield from refused_rows()
    yield from bound_rows()
    yield from pair_rows()
    yield from order_rows()
    yield from room_rows()


# One case for each of 1 to 8, and the ways to each.
def refused_rows():
    r = read_row
    yield r(1, "a head record that ends early", SMALLEST[:-1])
    yield r(1, "an arc that ends early", sound()[:-1])
    yield r(1, "a body of 65535 bytes that is not there", SMALLEST + b"\xff\xff\x03\x00")
    yield r(2, "a final first", final_record((0, 0)) + SMALLEST)
    yield r(3, "no states", sound(n=0, start=0, finals=(), arcs=()))
    yield r(3, "1025 states", sound(n=1025))
    yield r(3, "3073 arcs", sound(m=3073), also=[4])
    yield r(3, "more finals than states", sound(n=1, start=0, finals=(), arcs=(), f=2), also=[4])
    yield r(3, "a start that is no state", sound(start=4))
    yield r(4, "a final too few", sound(f=3))
    yield r(4, "a final too many", sound(f=1))
    yield r(4, "an arc too few", sound(m=4))
    yield r(4, "an arc too many", sound(m=2))
    yield r(4, "5 arcs in the bytes of 8 finals", sound(n=8, finals=(), arcs=[(0, 1, 1, 0, 0)] * 5, f=8, m=0))
    yield r(4, "8 finals in the bytes of 5 arcs", sound(n=8, finals=[(s, 0) for s in range(8)], arcs=(), f=0, m=5))
    yield r(5, "a final state that is no state", sound(finals=((0, 5), (4, 0))))
    yield r(5, "a source that is no state", sound(arcs=((4, 1, 2, 1, 3),)))
    yield r(5, "a target that is no state", sound(arcs=((0, 1, 2, 4, 3),)))
    yield r(6, "a final state twice", sound(finals=((2, 5), (2, 0))))
    yield r(6, "final states that fall", sound(finals=((2, 5), (0, 0))))
    yield r(6, "sources that fall", sound(arcs=((1, 1, 2, 1, 3), (0, 1, 2, 1, 3))))
    yield r(7, "output 65535 beside a symbol", sound(arcs=((0, 1, 65535, 1, 3),)))
    yield r(7, "output 65535 beside no symbol", sound(arcs=((0, 0, 65535, 1, 3),)))
    yield r(8, "a final weight of 1000001", sound(finals=((0, 1000001),)))
    yield r(8, "an arc weight of 1000001", sound(arcs=((0, 1, 2, 1, 1000001),)))
    yield r(8, "an arc weight of 2147483647", sound(arcs=((0, 1, 2, 1, 2147483647),)))
    yield r(8, "a final weight of -1000001", sound(finals=((0, -1000001),)))
    yield r(8, "an arc weight of -1000001", sound(arcs=((0, 1, 2, 1, -1000001),)))
    yield r(8, "an arc weight of -2147483648", sound(arcs=((0, 1, 2, 1, -2147483648),)))
    yield r(8, "a final weight of -2147483648", sound(finals=((0, -2147483648),)))


# The last value on the sound side of each limit.
def bound_rows():
    r = read_row
    yield r(0, "a final weight of 1000000", sound(finals=((0, 1000000),)))
    yield r(0, "an arc weight of 1000000", sound(arcs=((0, 1, 2, 1, 1000000),)))
    for weight in (0, -1, -1000000):
        yield r(0, f"a final weight of {weight}", sound(finals=((0, weight),)))
        yield r(0, f"an arc weight of {weight}", sound(arcs=((0, 1, 2, 1, weight),)))
    yield r(0, "weights of both signs", sound(finals=((0, -5), (2, 7)), arcs=((0, 1, 2, 1, -3), (1, 3, 0, 2, 1), (1, 0, 4, 3, -7))))
    yield r(0, "the bytes of an arc weight of -1000000", WEIGHED + b"\xc0\xbd\xf0\xff")
    yield r(8, "the bytes of an arc weight of -1000001", WEIGHED + b"\xbf\xbd\xf0\xff")
    yield r(0, "the bytes of an arc weight of -1", WEIGHED + b"\xff\xff\xff\xff")
    yield r(8, "the sign alone", WEIGHED + b"\x00\x00\x00\x80")
    yield r(0, "labels of 65534", sound(arcs=((0, 65534, 65534, 1, 0),)))
    for output in (65535, 65534, 2, 0):
        yield r(0, f"input 65535, output {output}", sound(arcs=((0, 65535, output, 1, 3), (1, 1, 2, 1, 3))))
    yield r(0, "each state final", sound(finals=((0, 0), (1, 0), (2, 0), (3, 0)), start=3))
    yield r(0, "the last state throughout", sound(finals=((3, 1),), arcs=((3, 1, 1, 3, 1), (3, 1, 1, 3, 1)), start=3))


# Two neighbours hold, and the lower number wins.
def pair_rows():
    r = read_row
    both = ((3, 2, 65535, 0, 1000001), (0, 1, 2, 1, 3))
    yield r(1, "1 before 2", SMALLEST + SMALLEST + b"\x00", also=[2])
    yield r(2, "2 before 3", sound(n=0, start=0, finals=(), arcs=()) + record(4, b""), also=[3])
    yield r(3, "3 before 4", sound(start=4, m=4), also=[4])
    yield r(4, "4 before 5", sound(finals=((0, 5), (4, 0)), m=4), also=[5])
    yield r(5, "5 before 6", sound(finals=((4, 5), (4, 0))), also=[6])
    yield r(5, "5 in an arc before 6 in a final", sound(finals=((2, 5), (2, 0)), arcs=((0, 1, 2, 4, 3),)), also=[6])
    yield r(6, "6 before 7", sound(arcs=both), also=[7])
    yield r(7, "7 before 8", sound(arcs=both[:1]), also=[8])
    yield r(7, "7 in an arc before 8 in a final", sound(finals=((0, 1000001),), arcs=((0, 1, 65535, 1, 3),)), also=[8])
    yield r(8, "8 before 10", sound(finals=((0, 1000001),)), room=STATES_SHORT, also=[10])
    yield r(8, "8 of a weight below before 10", sound(arcs=((0, 1, 2, 1, -1000001),)), room=STATES_SHORT, also=[10])
    yield r(1, "1 before 10", b"\x08", room=ARC_WEIGHTS_SHORT, also=[10])


# Rubbish behind, and kinds, lengths and their order.
def order_rows():
    r = read_row
    head, final, arc = head_record(*ONE_ARC), final_record((0, 1)), arc_record((0, 1, 2, 0, 3))
    yield r(1, "1 byte of rubbish behind", sound() + b"\x00")
    yield r(1, "2 bytes of rubbish behind", sound() + b"\x00" * 2)
    yield r(1, "3 bytes of rubbish behind", sound() + b"\x00" * 3)
    yield r(2, "4 bytes of rubbish behind", sound() + b"\x00" * 4)
    yield r(0, "head, final, arc", head + final + arc)
    yield r(2, "a second head", head + final + arc + head)
    yield r(2, "a second head in between", head + head + final + arc)
    yield r(2, "an unknown kind", head + final + arc + record(4, b""))
    yield r(2, "kind 0 first", record(0, b"\x00" * 8) + final + arc)
    yield r(2, "kind 2 after kind 3", head + arc + final)
    yield r(2, "a head of length 7", record(1, head[4:11]) + final + arc)
    yield r(2, "a head of length 9", record(1, head[4:] + b"\x00") + final + arc)
    yield r(2, "a final of length 5", head + record(2, final[4:9]) + arc)
    yield r(2, "a final of length 7", head + record(2, final[4:] + b"\x00") + arc)
    yield r(2, "an arc of length 11", head + final + record(3, arc[4:15]))
    yield r(2, "an arc of length 13", head + final + record(3, arc[4:] + b"\x00"))


# Each buffer one short, and each at its least length.
def room_rows():
    r = read_row
    yield r(10, "final states one short", SMALLEST, room=STATES_SHORT)
    yield r(10, "final weights one short", SMALLEST, room=WEIGHTS_SHORT)
    yield r(10, "fields one short", SMALLEST, room=FIELDS_SHORT)
    yield r(10, "arc weights one short", SMALLEST, room=ARC_WEIGHTS_SHORT)
    yield r(0, "each buffer at its least length", sound(), room=EXACT)


def write_rows():
    def w(want, name, t, room=NONE, also=()):
        return write_row(want, name, numbers_of(t), runs_of(t), room, also)

    arc = ((0, 1, 2, 1, 3),)
    yield w(0, "the smallest transducer", fst(n=1, start=0, finals=(), arcs=()))
    yield w(0, "a sound transducer", fst())
    yield w(0, "weights of 1000000", fst(finals=((0, 1000000),), arcs=((0, 1, 2, 1, 1000000),)))
    yield w(0, "weights of -1000000", fst(finals=((0, -1000000),), arcs=((0, 1, 2, 1, -1000000),)))
    yield w(0, "weights of -1 and 0", fst(finals=((0, -1), (2, 0)), arcs=((0, 1, 2, 1, 0), (1, 1, 2, 1, -1))))
    yield w(3, "no states", fst(n=0, start=0, finals=(), arcs=()))
    yield w(3, "1025 states", fst(n=1025))
    yield w(3, "65537 states", fst(n=65537))
    yield w(3, "3073 arcs", fst(m=3073), also=[4])
    yield w(3, "65536 arcs", fst(m=65536, arcs=()), also=[4])
    yield w(3, "more finals than states", fst(n=1, start=0, finals=((0, 0), (1, 0)), arcs=()), also=[5])
    yield w(3, "a start that is no state", fst(start=4))
    yield w(3, "a start of 4294967295", fst(start=4294967295))
    yield w(5, "a final state that is no state", fst(finals=((0, 5), (4, 0))))
    yield w(5, "a source that is no state", fst(arcs=((4, 1, 2, 1, 3),)))
    yield w(5, "a target that is no state", fst(arcs=((0, 1, 2, 4, 3),)))
    yield w(6, "a final state twice", fst(finals=((2, 5), (2, 0))))
    yield w(6, "final states that fall", fst(finals=((2, 5), (0, 0))))
    yield w(6, "sources that fall", fst(arcs=((1, 1, 2, 1, 3),) + arc))
    yield w(0, "inputs of 65535", fst(arcs=((0, 65535, 65535, 1, 3), (0, 65535, 0, 1, 3), (1, 65535, 7, 0, 0))))
    yield w(7, "output 65535 beside a symbol", fst(arcs=((0, 1, 65535, 1, 3),)))
    yield w(7, "output 65535 beside no symbol", fst(arcs=((0, 0, 65535, 1, 3),)))
    yield w(8, "a final weight of 1000001", fst(finals=((0, 1000001),)))
    yield w(8, "an arc weight of 1000001", fst(arcs=((0, 1, 2, 1, 1000001),)))
    yield w(8, "a final weight of -1000001", fst(finals=((0, -1000001),)))
    yield w(8, "an arc weight of -1000001", fst(arcs=((0, 1, 2, 1, -1000001),)))
    yield w(8, "an arc weight of -2147483648", fst(arcs=((0, 1, 2, 1, -2147483648),)))
    yield w(10, "bytes one short", fst(), room=OUT_SHORT)
    yield w(0, "bytes at the least length", fst(), room=EXACT)
    yield w(3, "3 before 4", fst(start=4, f=3), also=[4])
    yield w(4, "4 before 5", fst(arcs=((0, 1, 2, 4, 3),), f=3), also=[5])
    yield w(5, "5 before 6", fst(finals=((4, 5), (4, 0))), also=[6])
    yield w(6, "6 before 7", fst(arcs=((3, 2, 65535, 0, 3),) + arc), also=[7])
    yield w(7, "7 before 8", fst(arcs=((3, 2, 65535, 0, 1000001),)), also=[8])
    yield w(8, "8 before 10", fst(finals=((0, 1000001),)), room=OUT_SHORT, also=[10])
    yield from run_rows()


# A run one short, and runs with rubbish behind the f and m of them.
def run_rows():
    t = fst()
    runs = runs_of(t)
    for k, name in enumerate(("final states", "final weights", "fields", "arc weights")):
        short = [run[:-1] if i == k else run for i, run in enumerate(runs)]
        yield write_row(4, f"{name} one too few", numbers_of(t), short)
    behind = ([0, 65535], [-2147483648], [65535] * 9, [-1000001, 0])
    longer = [run + more for run, more in zip(runs, behind)]
    yield write_row(0, "runs longer than f and m", numbers_of(t), longer)
    yield write_row(0, "runs longer by part of an arc", numbers_of(t), [*runs[:2], runs[2] + [65535], runs[3]])


def round_trip_rows():
    yield round_trip_row("the smallest transducer", SMALLEST)
    yield round_trip_row("a sound transducer", sound())
    yield round_trip_row("like arcs and any order within a source", sound(arcs=((1, 9, 9, 3, 4), (1, 1, 1, 0, 4), (1, 9, 9, 3, 4))))
    yield round_trip_row("weights at both ends, 0 and -1", sound(finals=((0, -1000000), (1, 1000000), (2, -1), (3, 0)), arcs=AT_ENDS))
    yield round_trip_row("the largest transducer", largest())


def files():
    rows = [*read_rows(), *write_rows(), *round_trip_rows(), *compose_rows(), *apply_rows(), *trim_rows(), *count_rows(), *nth_rows(), *shortest_rows(),
            *distance_rows()]
    return {"stdin": b"".join(body for body, _ in rows), "stdout": "".join(line + "\n" for _, line in rows).encode("ascii")}


def main():
    folder = Path(__file__).resolve().parents[2] / "crates" / "limits"
    check = sys.argv[1:] == ["--check"]
    if sys.argv[1:] and not check:
        sys.exit(__doc__)
    for name, want in files().items():
        path = folder / name
        if not check:
            path.write_bytes(want)
        elif not path.is_file() or path.read_bytes() != want:
            sys.exit(f"crates/limits/{name} is not what tests/limits/cases.py gives: run it and look at the difference")
    if check:
        print("crates/limits: the cases and their lines are those of tests/limits/cases.py")


if __name__ == "__main__":
    main()
