"""The limit cases of composition (paper 01: the join), with the refusal of each written out by hand."""
import struct
import sys

from model import ARCS, STATES, composed, encode
from rows import EXACT, ORIGINS_SHORT, SMALLEST, TABLE_SHORT, TRIPLES_SHORT, compose_row, sound

# Paper 01's last case: left and right, what is written, and the origins.
LAST_LEFT = sound(n=3, start=0, finals=((2, 0),), arcs=((0, 1, 2, 1, 3), (1, 3, 0, 2, 1)))
LAST_RIGHT = sound(n=3, start=0, finals=((2, 1),), arcs=((0, 2, 4, 1, 2), (1, 0, 5, 2, 4)))
LAST_BYTES = """
    08 00 01 00  05 00 04 00 01 00 00 00
    06 00 02 00  04 00 01 00 00 00
    0c 00 03 00  00 00 01 00 04 00 01 00 05 00 00 00
    0c 00 03 00  01 00 03 00 00 00 02 00 01 00 00 00
    0c 00 03 00  01 00 00 00 05 00 03 00 04 00 00 00
    0c 00 03 00  02 00 00 00 05 00 04 00 04 00 00 00
"""
LAST_ORIGINS = "00 00 00 00  01 00 ff ff  ff ff 01 00  ff ff 01 00"


def loops(state, arcs):
    """Arcs of a state onto itself: how many, input, output, weight."""
    return [(state, i, o, state, w) for count, i, o, w in arcs for _ in range(count)]


def one_state(*arcs, weight=0):
    return sound(n=1, start=0, finals=((0, weight),), arcs=loops(0, arcs))


def line(n, first=(), last=()):
    """A line of n states with arcs 1:0, the last one final; its first and its last state may have loops."""
    arcs = loops(0, first) + [(s, 1, 0, s + 1, 0) for s in range(n - 1)] + loops(n - 1, last)
    return sound(n=n, start=0, finals=((n - 1, 0),), arcs=arcs)


REST = one_state((1, 0, 7, 0))


def sixes(n, like=1, weight=0):
    """A line of n states, the last one final, with so many like arcs 1:6 from each to the next."""
    return sound(n=n, start=0, finals=((n - 1, 0),), arcs=[(s, 1, 6, s + 1, weight) for s in range(n - 1) for _ in range(like)])


def hiding(named, weight=0):
    """So many loops 6:6 on the start, an arc for any symbol to a second state, a loop for any symbol there; both final."""
    return sound(n=2, start=0, finals=((0, 0), (1, 0)), arcs=[(0, 6, 6, 0, weight)] * named + [(0, 65535, 65535, 1, 0), (1, 65535, 65535, 1, 0)])


# Beside an arc for any symbol: 6 named at another state, and by an arc that leads nowhere.
ELSEWHERE = sound(n=2, start=0, finals=((1, 0),), arcs=((0, 65535, 9, 1, 1), (1, 6, 6, 1, 4)))
NOWHERE = sound(n=3, start=0, finals=((2, 0),), arcs=((0, 6, 6, 1, 0), (0, 65535, 65535, 2, 1)))


def hidden_loop(weight):
    """A loop 0:6, and a state that names 6 beside a loop for any symbol: two paths, and infinitely many if that loop fitted 6."""
    return one_state((1, 0, 6, weight)), sound(n=2, start=0, finals=((0, 0), (1, 0)), arcs=((0, 6, 6, 1, 0), (0, 65535, 65535, 0, 0)))


def last_row():
    t, origins = composed(LAST_LEFT, LAST_RIGHT)
    if encode(t) != bytes.fromhex(LAST_BYTES) or struct.pack("<8H", *origins) != bytes.fromhex(LAST_ORIGINS):
        sys.exit("paper 01's last case: the model composes something else than is written here")
    return compose_row(0, "paper 01's last case", LAST_LEFT, LAST_RIGHT, built=(5, 4, 1))


def compose_rows():
    c = compose_row
    yield c(0, "the smallest transducer with itself", SMALLEST, SMALLEST)
    yield last_row()
    yield c(0, "a sound transducer with itself", sound(), sound())
    yield from filter_rows()
    yield from size_rows()
    yield from weight_rows()
    yield from order_rows()
    yield from any_rows()
    yield from room_rows()


# The filter state, the order of steps, and numbers given once.
def filter_rows():
    c = compose_row
    left = sound(n=3, start=0, finals=((2, 0),), arcs=((0, 1, 2, 1, 0), (1, 3, 0, 2, 0)))
    right = sound(n=3, start=0, finals=((2, 0),), arcs=((0, 0, 5, 1, 0), (1, 2, 4, 2, 0)))
    yield c(0, "a left step after a right one and one of both", left, right)
    yield c(0, "both sides may rest", one_state((1, 1, 0, 2)), one_state((1, 0, 7, 3)))
    arcs = ((0, 1, 0, 1, 1), (0, 2, 8, 0, 2), (0, 3, 0, 0, 3), (0, 4, 9, 1, 4), (0, 5, 8, 1, 5))
    more = ((0, 8, 1, 1, 10), (0, 0, 2, 0, 20), (0, 9, 3, 0, 30), (0, 8, 4, 0, 40), (0, 0, 5, 1, 50))
    left, right = sound(n=2, start=0, finals=((1, 7),), arcs=arcs), sound(n=2, start=0, finals=((1, 9),), arcs=more)
    yield c(0, "left and both in the order of left arcs, right behind them", left, right)
    rings = [sound(n=n, start=0, finals=((0, 0),), arcs=[(s, 1, 1, (s + 1) % n, s) for s in range(n)]) for n in (4, 6)]
    yield c(0, "rings of 4 and 6 states", *rings)
    yield c(0, "nothing fits and nothing is final", one_state((3, 1, 2, 0)), sound(n=1, start=0, finals=(), arcs=((0, 3, 4, 0, 0),)))


# 11 and 12, and the last sizes below them.
def size_rows():
    c = compose_row
    ring = sound(n=STATES, start=0, finals=[(s, s) for s in range(STATES)], arcs=[(i // 3, 1, 2, (i + 1) % STATES, i) for i in range(ARCS)])
    aside = sound(n=2, start=0, finals=((0, 0),), arcs=((0, 0, 7, 0, 0), (0, 2, 3, 1, 0)))
    yield c(0, "a line of 512 states, and one that rests", line(512), REST, built=(1024, 1535, 2))
    yield c(11, "a line of 513 states, and one that rests", line(513), REST)
    yield c(11, "1025 states", line(512, last=[(1, 1, 2, 0)]), aside)
    yield c(0, "48 loops, and 64", one_state((48, 1, 2, 0)), one_state((64, 2, 3, 0)), built=(1, 3072, 1))
    yield c(12, "56 loops, and 55", one_state((56, 1, 2, 0)), one_state((55, 2, 3, 0)))
    yield c(12, "3073 arcs", one_state((48, 1, 2, 0), (1, 4, 5, 0)), one_state((64, 2, 3, 0), (1, 5, 6, 0)))
    yield c(0, "1024 states, 3072 arcs, each state final", ring, one_state((1, 2, 3, 4), weight=5), EXACT, built=(1024, 3072, 1024))


# 13 on either side, and the last weights before it.
def weight_rows():
    c = compose_row
    yield c(0, "an arc of -600000 - 400000", one_state((1, 1, 2, -600000)), one_state((1, 2, 3, -400000)))
    yield c(13, "an arc of -600000 - 400001", one_state((1, 1, 2, -600000)), one_state((1, 2, 3, -400001)))
    yield c(0, "a final weight of -600000 - 400000", one_state(weight=-600000), one_state(weight=-400000))
    yield c(13, "a final weight of -600000 - 400001", one_state(weight=-600000), one_state(weight=-400001))
    yield c(0, "arcs of -1000000 alone", one_state((1, 1, 0, -1000000)), one_state((1, 0, 7, -1000000)))
    yield c(0, "an arc and a final weight of 0", one_state((1, 1, 2, -1000000), weight=1000000), one_state((1, 2, 3, 1000000), weight=-1000000))
    yield c(0, "an arc and a final weight of -1", one_state((1, 1, 2, -1000000), weight=7), one_state((1, 2, 3, 999999), weight=-8))
    yield c(13, "an arc and a final weight of -2000000", one_state((1, 1, 2, -1000000), weight=-1000000), one_state((1, 2, 3, -1000000), weight=-1000000))
    yield c(0, "a ring below zero", one_state((1, 1, 2, -5)), one_state((1, 2, 3, 4), (1, 0, 7, -1)))
    yield c(0, "an arc of 600000 + 400000", one_state((1, 1, 2, 600000)), one_state((1, 2, 3, 400000)))
    yield c(13, "an arc of 600000 + 400001", one_state((1, 1, 2, 600000)), one_state((1, 2, 3, 400001)))
    yield c(0, "a final weight of 600000 + 400000", one_state(weight=600000), one_state(weight=400000))
    yield c(13, "a final weight of 600000 + 400001", one_state(weight=600000), one_state(weight=400001))
    yield c(0, "arcs of 1000000 alone", one_state((1, 1, 0, 1000000)), one_state((1, 0, 7, 1000000)))
    left = sound(n=2, start=0, finals=((0, 0),), arcs=((0, 1, 2, 1, 600000),))
    right = sound(n=2, start=0, finals=((0, 0),), arcs=((0, 2, 3, 1, 400001),))
    yield c(13, "a dear arc on no accepting path", left, right)
    left = sound(n=2, start=0, finals=((0, 0),), arcs=((0, 1, 2, 1, -600000),))
    right = sound(n=2, start=0, finals=((0, 0),), arcs=((0, 2, 3, 1, -400001),))
    yield c(13, "an arc of -1000001 on no accepting path", left, right)
    apart = sound(n=2, start=0, finals=((0, 0), (1, 1000000)), arcs=((1, 1, 2, 1, 1000000),))
    yield c(0, "a dear arc and a dear final that are not reached", apart, one_state((1, 2, 3, 1), weight=1))


# Two or more of 11 to 13 hold, and the lower number wins wherever it is met first.
def order_rows():
    c = compose_row
    dear, rest = ((1, 1, 2, 600000), (1, 2, 3, 400001)), (1, 0, 7, 0)
    yield c(11, "12 met before 11", line(513, first=[(56, 1, 4, 0)]), one_state((55, 4, 3, 0), rest), also=[12])
    yield c(11, "13 met before 11", line(513, first=[dear[0]]), one_state(dear[1], rest), also=[13])
    yield c(11, "12 and 13 met before 11", line(513, first=[(56, 1, 2, 600000)]), one_state((55, 2, 3, 400001), rest), also=[12, 13])
    yield c(12, "13 met before 12", one_state(dear[0], (56, 1, 4, 0)), one_state(dear[1], (55, 4, 3, 0)), also=[13])
    yield c(12, "13 met behind 12", one_state((56, 1, 4, 0), dear[0]), one_state((55, 4, 3, 0), dear[1]), also=[13])
    less = ((1, 1, 2, -600000), (1, 2, 3, -400001))
    yield c(12, "13 below met before 12", one_state(less[0], (56, 1, 4, 0)), one_state(less[1], (55, 4, 3, 0)), also=[13])
    yield c(12, "12 with a dear final", one_state((56, 1, 2, 0), weight=600000), one_state((55, 2, 3, 0), weight=400001), also=[13])


# Arcs for any symbol: on the right they fit what no arc of their state names, never an empty output; on the left 18, wherever they stand.
def any_rows():
    c = compose_row
    any_left = one_state((1, 65535, 2, 0))
    for output in (65535, 9, 0):
        yield c(0, f"65535:{output} on the right", one_state((1, 1, 6, 2)), one_state((1, 65535, output, 3)))
        yield c(0, f"65535:{output} and an empty output", one_state((1, 1, 0, 2)), one_state((1, 65535, output, 3)))
        yield c(18, f"65535:{output} on the left", one_state((1, 65535, output, 2)), one_state((1, 2, 3, 3)))
    mixed = one_state((1, 65535, 65535, 1), (1, 6, 6, 4), (1, 0, 8, 1), (1, 65535, 9, 5))
    yield c(0, "named and any arcs, mixed", one_state((2, 1, 6, 2), (1, 1, 7, 2)), mixed, built=(2, 10, 2))
    six = one_state((1, 1, 6, 2))
    yield c(0, "a named arc before the any arc", six, one_state((1, 6, 6, 4), (1, 65535, 65535, 1)), built=(1, 1, 1))
    yield c(0, "a named arc behind the any arc", six, one_state((1, 65535, 65535, 1), (1, 6, 6, 4)), built=(1, 1, 1))
    yield c(0, "two any arcs", six, one_state((1, 65535, 65535, 1), (1, 7, 7, 4), (1, 65535, 9, 1)), built=(1, 2, 1))
    yield c(0, "an empty input hides nothing", six, one_state((1, 0, 8, 1), (1, 65535, 9, 1)), built=(2, 4, 2))
    yield c(0, "a named arc of another state", six, ELSEWHERE, built=(2, 2, 1))
    yield c(0, "a named arc that leads nowhere", six, NOWHERE, built=(2, 1, 0))
    yield c(0, "11 that hidden arcs would give", sixes(513), hiding(1), built=(513, 512, 1))
    yield c(12, "12 in the place of 11 by hidden arcs", sixes(513, like=4), hiding(2))
    yield c(0, "12 that hidden arcs would give", one_state((56, 1, 6, 0)), one_state((1, 6, 6, 0), (55, 65535, 65535, 0)), built=(1, 56, 1))
    yield c(0, "13 that a hidden arc would give", one_state((1, 1, 6, 600000)), one_state((1, 6, 6, 0), (1, 65535, 7, 400001)), built=(1, 1, 1))
    yield c(0, "14 that a hidden arc would give", *hidden_loop(1), built=(2, 1, 2))
    bits = one_state((1, 43690, 6, 2), (1, 21845, 7, 2))
    yield c(0, "inputs whose bits make up 65535 on the left", bits, one_state((1, 6, 9, 3)), built=(1, 1, 1))
    yield c(0, "inputs whose bits make up 65535 on the right", one_state((1, 1, 43690, 2), (1, 1, 8, 2)), bits, built=(1, 1, 1))
    yield c(18, "65535 on an arc that is not reached", sound(n=2, start=0, finals=(), arcs=((1, 65535, 2, 1, 0),)), one_state((1, 2, 3, 3)))
    yield c(18, "18 before 1 on the right", any_left, SMALLEST[:-1], also=[1])
    yield c(18, "18 before 10", any_left, one_state((1, 2, 3, 3)), room=TABLE_SHORT, also=[10])
    yield c(8, "8 on the left before 18", one_state((1, 65535, 2, 1000001)), one_state((1, 2, 3, 3)))
    yield c(12, "12 by arcs for any symbol", one_state((56, 1, 2, 0)), one_state((55, 65535, 3, 0)))
    yield c(13, "13 by an arc for any symbol", one_state((1, 1, 2, 600000)), one_state((1, 65535, 3, 400001)))


# The left one's 1 to 8, the right one's, 10 with nothing touched, then 11.
def room_rows():
    c = compose_row
    dear = sound(arcs=((0, 1, 2, 1, 1000001),))
    yield c(2, "0 bytes on either side", b"", b"")
    yield c(8, "8 on the left before 1 on the right", dear, SMALLEST[:-1], also=[1])
    yield c(1, "1 on the left before 8 on the right", SMALLEST[:-1], dear, also=[8])
    yield c(1, "1 on the right", sound(), SMALLEST[:-1])
    yield c(5, "5 on the right", sound(), sound(arcs=((0, 1, 2, 4, 3),)))
    yield c(8, "8 on the right before 10", sound(), dear, room=TRIPLES_SHORT, also=[10])
    yield c(10, "bytes one short", LAST_LEFT, LAST_RIGHT, room=TABLE_SHORT)
    yield c(10, "origins one short", LAST_LEFT, LAST_RIGHT, room=ORIGINS_SHORT)
    yield c(10, "states one short", LAST_LEFT, LAST_RIGHT, room=TRIPLES_SHORT)
    yield c(10, "10 before 11", line(513), REST, room=TABLE_SHORT, also=[11])
    yield c(0, "each buffer at its least length", LAST_LEFT, LAST_RIGHT, room=EXACT)
