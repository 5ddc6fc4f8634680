"""The limit cases of the path count, the k-th path, the shortest path and costs to come, with the answer of each written out by hand."""
import struct
import sys

from compose_cases import NOWHERE, hidden_loop, line, loops, one_state
from lattice_cases import EXAMPLE, LAST_LATTICE
from lattice_model import applied, trimmed
from model import STATES, composed, encode
from path_model import COSTS_LEAST, NO_COST, TELL_LEAST, count, count_conditions, distance, distance_conditions, nth, nth_conditions
from path_model import shortest_conditions, shortest_path
from rows import EXACT, NONE, SMALLEST, agree, case, lend, sound, total, total_costs

COUNT, NTH, SHORTEST, DISTANCE = 7, 8, 9, 10
ARCS_SHORT, LABELS_SHORT = TELL_LEAST
(CELLS_SHORT,) = COSTS_LEAST


def count_row(want, name, data, paths=0, also=()):
    name = f"count, {name}:"
    agree(name, want, count_conditions(data), also)
    if count(data) != (want, paths):
        sys.exit(f"{name}: the row says {want} {paths}, the model {count(data)}")
    return case(COUNT, NONE, name, data), f"{name} refusal {want} count {paths}"


def told_words(name, want, told, answer, buffers, whole, cut):
    refusal, numbers, after = answer
    if told is not None and numbers != told:
        sys.exit(f"{name}: the row says {told}, the model {numbers}")
    sums = [total(after[k] + whole[k][cut[k] :]) for k in TELL_LEAST]
    return "{} refusal {} cost {} arcs {} labels {} sums {} {}".format(name, refusal, *numbers, *sums)


def nth_row(want, name, k, data, told=None, room=NONE, also=()):
    """`told` has cost, arcs and labels by hand."""
    name = f"path, {name}:"
    whole, cut = lend(TELL_LEAST, room)
    agree(name, want, nth_conditions(data, k, cut), also)
    answer = nth(data, k, {x: whole[x][: cut[x]] for x in TELL_LEAST})
    return case(NTH, room, name, struct.pack("<I", k) + data), told_words(name, want, told, answer, TELL_LEAST, whole, cut)


def shortest_row(want, name, data, told=None, room=NONE, also=()):
    name = f"shortest path, {name}:"
    whole, cut = lend(TELL_LEAST, room)
    agree(name, want, shortest_conditions(data, cut), also)
    answer = shortest_path(data, {x: whole[x][: cut[x]] for x in TELL_LEAST})
    return case(SHORTEST, room, name, data), told_words(name, want, told, answer, TELL_LEAST, whole, cut)


def distance_row(want, name, data, costs=None, room=NONE, also=()):
    """`costs` has those of the first states by hand."""
    name = f"costs to come, {name}:"
    whole, cut = lend(COSTS_LEAST, room)
    agree(name, want, distance_conditions(data, cut), also)
    refusal, after = distance(data, {x: whole[x][: cut[x]] for x in COSTS_LEAST})
    cells = after[CELLS_SHORT] + whole[CELLS_SHORT][cut[CELLS_SHORT] :]
    if costs is not None and cells[: len(costs)] != costs:
        sys.exit(f"{name}: the row says {costs}, the model {cells[: len(costs)]}")
    words = "{} refusal {} cells {} {} {} {} {} last {} sum {}".format(name, refusal, *cells[:5], cells[1023], total_costs(cells))
    return case(DISTANCE, room, name, data), words


def like(n):
    """So many like arcs from start to final."""
    return sound(n=2, start=0, finals=((1, 0),), arcs=((0, 1, 2, 1, 5),) * n)


# A ring on the only accepting path, and one that nothing accepts behind.
RING, FREE_RING = one_state((1, 0, 7, 2)), one_state((1, 0, 7, 0))
ASIDE = sound(n=3, start=0, finals=((0, 4),), arcs=((0, 1, 2, 1, 3), (1, 0, 4, 2, 0), (2, 0, 5, 1, 0)))
LATTICE = bytes.fromhex(LAST_LATTICE)
LONG = line(STATES)


PAYING = one_state((1, 0, 7, -1))


def ring(total, start=(), finals=(), more=(), n=5):
    """States 1, 2 and 3 in a ring that sums to `total`, and what is said beside."""
    arcs = sorted([(1, 0, 7, 2, -4), (2, 0, 8, 3, 9), (3, 0, 9, 1, total - 5), *start, *more], key=lambda x: x[0])
    return sound(n=n, start=0, finals=finals, arcs=arcs)


def on_a_path(total):
    """From 0 into the ring and from the ring to 4, which is final."""
    return ring(total, [(0, 1, 2, 1, 3)], ((4, -2),), [(3, 1, 2, 4, 1)])


def lead_to_a_ring(total):
    """From 0 into the ring, which leads nowhere, and to 4."""
    return ring(total, [(0, 1, 2, 1, 3), (0, 1, 2, 4, 3)], ((4, -2),))


def lead_from_a_ring(total):
    """From 0 to 4, and from the ring, which nothing leads to, to 4."""
    return ring(total, [(0, 1, 2, 4, 3)], ((4, -2),), [(3, 1, 2, 4, 1)])


def apart_from_a_ring(total):
    return ring(total, [(0, 1, 2, 4, 3)], ((4, -2),))


def lattice_of(string, data):
    """The bytes of a string's lattice on a table."""
    return encode(trimmed(applied(string, data)[0])[0])


# Handed to a call directly, 65535 is one label of one arc.
ANY = sound(n=3, start=0, finals=((2, 0),), arcs=((0, 65535, 65535, 2, 5), (0, 65535, 0, 1, 2), (1, 65535, 0, 2, 3)))


def count_rows():
    c = count_row
    for n, paths in ((98, 98), (99, 99), (100, 99)):
        yield c(0, f"{n} like arcs", like(n), paths)
    yield c(14, "a ring of weight 2", RING)
    yield c(14, "a ring of weight 0", FREE_RING)
    yield c(14, "a ring of weight -1", PAYING)
    yield c(0, "an arc twice", like(2), 2)
    for symbol in (6, 7):
        yield c(0, f"paper 02's example of Point 6, code {symbol}", lattice_of((symbol,), EXAMPLE), 1)
    yield c(0, "a ring on no accepting path", ASIDE, 1)
    yield c(0, "a ring below 0 on no accepting path", lead_to_a_ring(-1), 1)
    yield c(0, "a ring that is not reached", sound(n=3, start=0, finals=((1, 0),), arcs=((0, 1, 2, 1, 0), (2, 0, 4, 2, 0), (2, 0, 4, 1, 0))), 1)
    yield c(14, "a ring of two states on an accepting path", sound(n=3, start=0, finals=((2, 0),), arcs=((0, 1, 2, 1, 0), (1, 0, 4, 0, 0), (1, 0, 4, 2, 0))))
    yield c(0, "nothing accepts", SMALLEST, 0)
    yield c(0, "the empty path", one_state(), 1)
    yield c(0, "paper 01's last case", LATTICE, 1)
    yield c(0, "a line of 1024 states", LONG, 1)
    backwards = sound(n=STATES, start=STATES - 1, finals=((0, 1),), arcs=[(s, 1, 2, s - 1, s) for s in range(1, STATES)])
    yield c(0, "a line of 1024 states numbered backwards", backwards, 1)
    double = sound(n=8, start=0, finals=((7, 0),), arcs=[(s, 1, 1, s + 1, 1) for s in range(7) for _ in (0, 1)])
    yield c(0, "128 paths", double, 99)
    yield c(0, "arcs for any symbol", ANY, 2)
    yield c(2, "0 bytes", b"")
    yield c(8, "8", sound(arcs=((0, 1, 2, 1, 1000001),)))


def nth_rows():
    p = nth_row
    yield p(0, "paper 01's last case", 0, LATTICE, (11, 3, 2))
    yield p(15, "k at the count", 1, LATTICE)
    yield p(0, "an arc twice, k 0", 0, like(2), (5, 1, 1))
    yield p(0, "an arc twice, k 1", 1, like(2), (5, 1, 1))
    yield p(15, "an arc twice, k 2", 2, like(2))
    yield p(0, "98 like arcs, k 97", 97, like(98), (5, 1, 1))
    yield p(15, "98 like arcs, k 98", 98, like(98))
    yield p(0, "100 like arcs, k 98", 98, like(100), (5, 1, 1))
    yield p(15, "100 like arcs, k 99", 99, like(100))
    yield p(15, "k 4294967295", 4294967295, like(2))
    yield p(14, "a ring", 0, RING)
    yield p(14, "a ring of weight -1", 0, PAYING)
    yield p(15, "15 in the place of 14 by a hidden arc", 2, lattice_of((), encode(composed(*hidden_loop(1))[0])))
    yield p(0, "a cost below 0", 1, sound(n=2, start=0, finals=((1, -4),), arcs=((0, 1, 2, 1, 5), (0, 1, 2, 1, -3))), (-7, 1, 1))
    yield p(0, "a cost of 0", 0, sound(n=2, start=0, finals=((1, -4),), arcs=((0, 1, 2, 1, 4),)), (0, 1, 1))
    yield p(0, "a cost of -1", 0, sound(n=2, start=0, finals=((1, 999999),), arcs=((0, 1, 2, 1, -1000000),)), (-1, 1, 1))
    yield p(0, "the empty path", 0, one_state(weight=9), (9, 0, 0))
    yield p(0, "a path before its extensions", 1, sound(n=2, start=0, finals=((0, 3), (1, 4)), arcs=((0, 1, 0, 1, 5), (0, 2, 6, 1, 1))), (9, 1, 0))
    yield p(0, "1023 arcs", 0, LONG, (0, 1023, 0))
    yield p(0, "65535 as a label", 0, ANY, (5, 1, 1))
    yield p(15, "nothing accepts", 0, SMALLEST)
    yield p(1, "1 before 10", 0, SMALLEST[:-1], room=ARCS_SHORT, also=[10])
    yield p(10, "arcs one short", 0, LATTICE, room=ARCS_SHORT)
    yield p(10, "labels one short", 0, LATTICE, room=LABELS_SHORT)
    yield p(10, "10 before 14", 0, RING, room=LABELS_SHORT, also=[14])
    yield p(10, "10 before 15", 9, LATTICE, room=ARCS_SHORT, also=[15])
    yield p(0, "each buffer at its least length", 0, LATTICE, room=EXACT)


# Costs below 0; 19 where a ring below 0 is on an accepting path, and nowhere else.
def signed_rows():
    s = shortest_row
    yield s(0, "the lesser of two below 0", sound(n=2, start=0, finals=((1, -4),), arcs=((0, 1, 2, 1, -3), (0, 1, 2, 1, -5))), (-9, 1, 1))
    yield s(0, "a longer path below 0 before the empty one", sound(n=2, start=0, finals=((0, 0), (1, 0)), arcs=((0, 1, 2, 1, -1),)), (-1, 1, 1))
    yield s(0, "a rebate behind a dear arc", sound(n=3, start=0, finals=((2, 0),), arcs=((0, 1, 1, 2, 2), (0, 2, 2, 1, 9), (1, 3, 3, 2, -8))), (1, 2, 2))
    yield s(0, "a final weight below 0", sound(n=2, start=0, finals=((0, -3), (1, -1000000)), arcs=((0, 1, 2, 1, 999998),)), (-3, 0, 0))
    yield s(0, "costs of 0 and fewest arcs", sound(n=3, start=0, finals=((2, -2),), arcs=((0, 1, 1, 1, -1), (0, 2, 2, 2, 2), (1, 3, 3, 2, 3))), (0, 1, 1))
    yield s(19, "a ring of weight -1 on the start", PAYING)
    yield s(19, "a ring of weight -1000000", one_state((1, 0, 7, -1000000)))
    yield s(19, "a ring below 0 on an accepting path", on_a_path(-1))
    yield s(0, "a ring of sum 0 on an accepting path", on_a_path(0), (7, 4, 4))
    yield s(0, "a ring of sum 1 on an accepting path", on_a_path(1), (7, 4, 4))
    yield s(0, "a ring below 0 that leads nowhere", lead_to_a_ring(-1), (1, 1, 1))
    yield s(0, "a ring below 0 that is not reached", lead_from_a_ring(-1), (1, 1, 1))
    yield s(0, "a ring below 0 apart", apart_from_a_ring(-1), (1, 1, 1))
    yield s(16, "a ring below 0 that leads nowhere, and nothing accepts", ring(-1, [(0, 1, 2, 1, 3)]))
    yield s(16, "a ring below 0 that is not reached, and nothing accepts", ring(-1, (), ((4, 0),), [(3, 1, 2, 4, 1)]))
    # 0 to 1 for -6 and back for 5 pays, though every path without a ring costs more than 0.
    yield s(19, "a ring below 0 aside from the cheapest path", sound(n=3, start=0, finals=((2, 9),), arcs=((0, 0, 1, 2, 1), (0, 0, 2, 1, -6), (1, 0, 3, 0, 5))))
    for n, sum_, number, told in ((100, -1, 19, None), (STATES, -1, 19, None), (STATES, 0, 0, (STATES - 1, STATES - 1, STATES - 1))):
        around = [(i, 0, 2, i + 1, 1) for i in range(n - 1)] + [(n - 1, 0, 2, 0, sum_ + 1 - n)]
        yield s(number, f"a ring of {n} states of sum {sum_}", sound(n=n, start=0, finals=((n - 1, 0),), arcs=around), told)
    yield s(8, "8 before 19", one_state((1, 0, 7, -1), (1, 0, 7, -1000001)))
    yield s(10, "10 before 19", PAYING, room=LABELS_SHORT, also=[19])
    yield s(19, "19 at the least lengths", PAYING, room=EXACT)


# Equal cost: fewest labels, then fewest arcs, then path order. An empty output is no label.
def tie_rows():
    s = shortest_row
    yield s(0, "fewest labels before fewest arcs", sound(n=3, start=0, finals=((2, 0),), arcs=((0, 1, 7, 2, 5), (0, 2, 0, 1, 2), (1, 3, 0, 2, 3))), (5, 2, 0))
    yield s(0, "least cost before fewest labels", sound(n=3, start=0, finals=((2, 0),), arcs=((0, 1, 7, 2, 5), (0, 2, 0, 1, 3), (1, 3, 0, 2, 3))), (5, 1, 1))
    yield s(0, "fewest arcs at as many labels", sound(n=3, start=0, finals=((2, 0),), arcs=((0, 1, 0, 1, 2), (0, 2, 7, 2, 5), (1, 3, 7, 2, 3))), (5, 1, 1))
    both = ((0, 1, 7, 1, 2), (0, 2, 0, 2, 2), (1, 3, 0, 3, 3), (2, 3, 7, 3, 3))
    yield s(0, "path order at as many labels and arcs", sound(n=4, start=0, finals=((3, 0),), arcs=both), (5, 2, 1))
    yield s(0, "stopping early before a silent arc at the same cost", sound(n=2, start=0, finals=((0, 4), (1, 0)), arcs=((0, 1, 0, 1, 4),)), (4, 0, 0))
    yield s(0, "a silent ring of cost 0", sound(n=3, start=0, finals=((2, 0),), arcs=((0, 0, 0, 1, 0), (1, 0, 0, 0, 0), (1, 0, 8, 2, 3))), (3, 2, 1))
    silent = ((0, 1, 8, 2, 0), (0, 0, 0, 1, 0), (1, 0, 0, 0, 0), (1, 0, 0, 2, 0))
    yield s(0, "a silent way of cost 0", sound(n=3, start=0, finals=((2, 0),), arcs=silent), (0, 2, 0))
    rebate = ((0, 1, 7, 2, -4), (0, 0, 0, 1, 0), (1, 0, 0, 0, 0), (1, 0, 0, 2, -4))
    yield s(0, "a silent way at a cost below 0", sound(n=3, start=0, finals=((2, -1),), arcs=rebate), (-5, 2, 0))
    many = [(0, 1, 7, 1, 0)] * 40 + [(0, 0, 0, 2, 0)] + [(0, 1, 7, 1, 0)] * 40 + [(2, 0, 0, 1, 0)]
    yield s(0, "a silent way among many arcs of weight 0", sound(n=3, start=0, finals=((1, 0),), arcs=many), (0, 2, 0))
    below = [(0, 1, 7, 1, -1)] * 40 + [(0, 0, 0, 2, 0)] + [(0, 1, 7, 1, -1)] * 40 + [(2, 0, 0, 1, -1)]
    yield s(0, "a silent way among many arcs below 0", sound(n=3, start=0, finals=((1, 0),), arcs=below), (-1, 2, 0))
    loops_of_7 = [(0, 1, 7, 1, 1)] * 40 + [(0, 1, 7, 1, 0)] * 40
    yield s(0, "many arcs that all write a label", sound(n=2, start=0, finals=((1, 0),), arcs=loops_of_7), (0, 1, 1))
    yield s(0, "65535 counts as a label", ANY, (5, 2, 0))


def shortest_rows():
    s = shortest_row
    yield s(0, "paper 01's last case", LATTICE, (11, 3, 2))
    for symbol, cost in ((6, 4), (7, 1)):
        yield s(0, f"paper 02's example of Point 6, code {symbol}", lattice_of((symbol,), EXAMPLE), (cost, 1, 1))
    yield s(16, "16 where only a hidden arc leads on", lattice_of((6,), NOWHERE))
    yield s(0, "19 that a hidden arc would give", lattice_of((), encode(composed(*hidden_loop(-1))[0])), (-1, 1, 1))
    yield s(0, "a ring of weight 2", RING, (0, 0, 0))
    yield s(0, "a ring of weight 0", FREE_RING, (0, 0, 0))
    yield s(0, "the final weight counts", sound(n=2, start=0, finals=((0, 9), (1, 3)), arcs=((0, 1, 2, 1, 5),)), (8, 1, 1))
    yield s(0, "fewest arcs before path order", sound(n=3, start=0, finals=((2, 0),), arcs=((0, 1, 1, 1, 2), (0, 2, 2, 2, 5), (1, 3, 3, 2, 3))), (5, 1, 1))
    yield s(0, "path order last", sound(n=3, start=0, finals=((2, 0),), arcs=((0, 1, 1, 2, 6), (0, 2, 2, 2, 5), (0, 3, 3, 2, 5), (1, 3, 3, 2, 3))), (5, 1, 1))
    yield s(0, "least cost before fewest arcs", sound(n=3, start=0, finals=((2, 0),), arcs=((0, 1, 1, 2, 6), (0, 2, 2, 1, 2), (1, 3, 3, 2, 3))), (5, 2, 2))
    yield from tie_rows()
    yield s(0, "stopping early at the same cost", sound(n=2, start=0, finals=((0, 4), (1, 0)), arcs=((0, 1, 2, 1, 4),)), (4, 0, 0))
    yield s(0, "a ring of weight 0 on the way", sound(n=3, start=0, finals=((2, 0),), arcs=((0, 0, 7, 1, 0), (1, 0, 7, 0, 0), (1, 0, 8, 2, 3))), (3, 2, 2))
    dear = sound(n=STATES, start=0, finals=((STATES - 1, 1000000),), arcs=[(i, 1, 2, i + 1, 1000000) for i in range(STATES - 1)])
    yield s(0, "1023 arcs of 1000000", dear, (1024000000, 1023, 1023))
    cheap = sound(n=STATES, start=0, finals=((STATES - 1, -1000000),), arcs=[(i, 1, 2, i + 1, -1000000) for i in range(STATES - 1)])
    yield s(0, "1023 arcs of -1000000", cheap, (-1024000000, 1023, 1023))
    yield from signed_rows()
    yield s(16, "nothing accepts", SMALLEST)
    yield s(16, "a final state that is not reached", sound(n=2, start=0, finals=((1, 0),), arcs=()))
    yield s(16, "a ring on no accepting path", sound(n=3, start=0, finals=((2, 0),), arcs=loops(0, [(1, 1, 1, 0)]) + [(0, 1, 1, 1, 0)]))
    yield s(4, "4 before 10", sound(n=1, start=0, finals=(), arcs=()) + b"\x0c\0\3\0" + bytes(12), room=ARCS_SHORT, also=[10])
    yield s(10, "arcs one short", LATTICE, room=ARCS_SHORT)
    yield s(10, "labels one short", LATTICE, room=LABELS_SHORT)
    yield s(10, "10 before 16", SMALLEST, room=LABELS_SHORT, also=[16])
    yield s(0, "each buffer at its least length", LATTICE, room=EXACT)


# Of each state, reached or not; 19 wherever a ring below 0 leads to a final state.
def distance_rows():
    d, none = distance_row, NO_COST
    dirty = 6510615555426900570
    yield d(0, "final weights start the sum", sound(n=3, start=0, finals=((0, 9), (2, -3)), arcs=((0, 1, 2, 1, 5), (1, 1, 2, 2, 4))), [6, 1, -3, none])
    yield d(0, "a state that is not reached", sound(n=3, start=0, finals=((1, 4),), arcs=((0, 1, 2, 1, 5), (2, 1, 2, 0, -7))), [9, 4, 2, none])
    yield d(0, "none, and past the last state", sound(n=2, start=0, finals=((1, 0),), arcs=((1, 1, 2, 0, 3),)), [none, 0, none, none, none])
    yield d(0, "nothing is final", sound(n=2, start=0, finals=(), arcs=((0, 1, 2, 1, 3), (1, 1, 2, 0, 3))), [none, none, none])
    yield d(0, "the smallest table", SMALLEST, [none, none])
    yield d(0, "paper 01's last case", LATTICE, [11])
    yield d(0, "a ring of sum 0", on_a_path(0), [7, 4, 8, -1, -2, none])
    yield d(0, "a ring of sum 1", on_a_path(1), [7, 4, 8, -1, -2, none])
    yield d(19, "a ring below 0 on an accepting path", on_a_path(-1), [dirty])
    yield d(19, "a ring below 0 that is not reached", lead_from_a_ring(-1), [dirty])
    yield d(0, "a ring of sum 0 that is not reached", lead_from_a_ring(0), [1, 4, 8, -1, -2, none])
    yield d(0, "a ring below 0 that leads nowhere", lead_to_a_ring(-1), [1, none, none, none, -2, none])
    yield d(0, "a ring below 0 apart", apart_from_a_ring(-1), [1, none, none, none, -2, none])
    yield d(0, "a ring below 0 that leads nowhere, and nothing accepts", ring(-1, [(0, 1, 2, 1, 3)]), [none] * 6)
    yield d(19, "a ring below 0 that is not reached, and nothing accepts", ring(-1, (), ((4, 0),), [(3, 1, 2, 4, 1)]), [dirty])
    yield d(19, "a ring of weight -1 on the start", PAYING, [dirty])
    yield d(0, "a ring of weight 0 on the start", FREE_RING, [0, none])
    for w in (1000000, -1000000):
        long = sound(n=STATES, start=0, finals=((STATES - 1, w),), arcs=[(i, 1, 2, i + 1, w) for i in range(STATES - 1)])
        yield d(0, f"1023 arcs of {w}", long, [1024 * w, 1023 * w, 1022 * w])
    both = [(0, 1, 2, 2, i - 5) for i in range(30)] + [(1, 1, 2, 2, 7 - i) for i in range(30)]
    yield d(0, "many arcs of both signs, each to a state above all sources", sound(n=3, start=0, finals=((2, 1),), arcs=both), [-4, -21, 1, none])
    yield d(0, "arcs for any symbol", ANY, [5, 3, 0, none])
    yield d(0, "1024 states, the last one not reached and not final", sound(n=STATES, start=0, finals=((0, 7),), arcs=()), [7, none, none])
    yield d(0, "1024 states, the last one final", sound(n=STATES, start=0, finals=((STATES - 1, 7),), arcs=((0, 1, 2, STATES - 1, -9),)), [-2, none])
    yield d(2, "0 bytes", b"")
    yield d(8, "8 before 10", sound(arcs=((0, 1, 2, 1, 1000001),)), room=CELLS_SHORT, also=[10])
    yield d(10, "cells one short", LATTICE, [dirty] * 5, room=CELLS_SHORT)
    yield d(10, "10 before 19", PAYING, [dirty], room=CELLS_SHORT, also=[19])
    yield d(19, "19 at the least length", PAYING, [dirty], room=EXACT)
    yield d(0, "cells at the least length", LATTICE, [11], room=EXACT)
