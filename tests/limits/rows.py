"""How a limit case is made: the bytes that the program `limits` gets, and the line that it must print.

Each row has the refusal written out by hand. The line comes from model.py, a second reading of the paper; a row whose refusal
the model does not give stops the run.
"""
import struct
import sys

from model import (
    BYTES, COMPOSE_LEAST, LEAST, Arc, Final, Transducer,
    byte_conditions, compose, compose_conditions, composed, encode, read, read_conditions, write, write_conditions,
)

READ, WRITE, ROUND_TRIP, COMPOSE = 1, 2, 3, 4

# Which lent buffer is one short: none; final states, final weights, fields, arc weights of reading; the bytes of writing; the
# bytes, origins and triples of composition. At EXACT each has its least length, and otherwise SPARE cells more.
NONE, STATES_SHORT, WEIGHTS_SHORT, FIELDS_SHORT, ARC_WEIGHTS_SHORT, OUT_SHORT, EXACT = 0, 1, 2, 3, 4, 5, 9
TABLE_SHORT, ORIGINS_SHORT, TRIPLES_SHORT = COMPOSE_LEAST
SPARE = 5
DIRTY = {8: 90, 16: 23130, 32: 1515870810, 64: 6510615555426900570}
WIDTH = {1: 16, 2: 32, 3: 16, 4: 32, 6: 8, 7: 16, 8: 32, 10: 8, 11: 16, 12: 32, 13: 8, 14: 16, 15: 16, 16: 16, 17: 64}


def lent(room, buffer, least):
    return least if room == EXACT else least - 1 if room == buffer else least + SPARE


def lend(least, room):
    """The dirty buffers of a call by number, and how many cells of each are lent."""
    return {k: [DIRTY[WIDTH[k]]] * (least[k] + SPARE) for k in least}, {k: lent(room, k, least[k]) for k in least}


def total(cells):
    """The sum of some cells; one below zero counts by its 32 bits."""
    h = 0
    for x in cells:
        h = (h * 31 + x % 2**32) % 65521
    return h


def total_costs(cells):
    """The same of costs, each by what it leaves."""
    h = 0
    for x in cells:
        h = (h * 31 + x % 65521) % 65521
    return h


def case(call, room, name, body):
    name = name.encode("ascii")
    return struct.pack("<BBHI", call, room, len(name), len(body)) + name + body


def agree(name, want, held, also):
    """The row's own refusal is the first of the conditions that hold, in the order of testing, and those that it names hold behind it."""
    if want != (held[0] if held else 0) or not set(also) <= set(held[1:]):
        sys.exit(f"{name}: the row says {want} {tuple(also)}, the model {held}")


def read_words(refusal, numbers, buffers):
    words = "refusal {} states {} arcs {} finals {} start {} sums {} {} {} {}"
    return words.format(refusal, *numbers, *map(total, buffers))


def read_row(want, name, data, room=NONE, also=()):
    name = f"read, {name}:"
    whole, cut = lend(LEAST, room)
    agree(name, want, sorted(read_conditions(data, cut)), also)
    refusal, numbers, after = read(data, {k: whole[k][: cut[k]] for k in LEAST})
    words = read_words(refusal, numbers, [after[k] + whole[k][cut[k] :] for k in LEAST])
    return case(READ, room, name, data), f"{name} {words}"


def write_words(numbers, runs, room):
    whole = [DIRTY[8]] * (BYTES + SPARE)
    cut = lent(room, OUT_SHORT, BYTES)
    refusal, length, after = write(numbers, runs, whole[:cut])
    return f"refusal {refusal} length {length} sum {total(after + whole[cut:])}", after[:length]


def write_row(want, name, numbers, runs, room=NONE, also=()):
    name = f"write, {name}:"
    agree(name, want, sorted(write_conditions(numbers, runs, lent(room, OUT_SHORT, BYTES))), also)
    body = struct.pack("<8I", *numbers, *map(len, runs))
    for run, form in zip(runs, "HiHi"):
        body += struct.pack(f"<{len(run)}{form}", *run)
    return case(WRITE, room, name, body), f"{name} {write_words(numbers, runs, room)[0]}"


def round_trip_row(name, data):
    name = f"read and write, {name}:"
    agree(name, 0, sorted(byte_conditions(data)), ())
    refusal, numbers, after = read(data, lend(LEAST, NONE)[0])
    runs = [after[k] for k in LEAST]
    words, written = write_words(numbers, runs, NONE)
    same = " same" if bytes(written) == data else ""
    return case(ROUND_TRIP, NONE, name, data), f"{name} {read_words(refusal, numbers, runs)} {words}{same}"


def compose_row(want, name, left, right, room=NONE, also=(), built=None):
    """`built` has the states, arcs and finals of what is written, by hand."""
    name = f"compose, {name}:"
    whole, cut = lend(COMPOSE_LEAST, room)
    agree(name, want, compose_conditions(left, right, cut), also)
    if built and composed(left, right)[0][:3] != built:
        sys.exit(f"{name}: the row says {built}, the model {composed(left, right)[0][:3]}")
    refusal, length, after = compose(left, right, {k: whole[k][: cut[k]] for k in COMPOSE_LEAST})
    sums = [total(after[k] + whole[k][cut[k] :]) for k in COMPOSE_LEAST]
    body = struct.pack("<I", len(left)) + left + right
    return case(COMPOSE, room, name, body), "{} refusal {} length {} sums {} {} {}".format(name, refusal, length, *sums)


def fst(n=4, start=1, finals=((0, 5), (2, 0)), arcs=((0, 1, 2, 1, 3), (1, 3, 0, 2, 1), (1, 0, 4, 3, 7)), m=None, f=None):
    """A sound transducer unless an argument spoils it; m and f say other numbers than there are."""
    finals, arcs = [Final(*x) for x in finals], [Arc(*x) for x in arcs]
    return Transducer(n, len(arcs) if m is None else m, len(finals) if f is None else f, start, finals, arcs)


def sound(**spoil):
    return encode(fst(**spoil))


def runs_of(t):
    return [x.state for x in t.finals], [x.weight for x in t.finals], [y for x in t.arcs for y in x[:4]], [x.weight for x in t.arcs]


def numbers_of(t):
    return t.n, t.m, t.f, t.start


SMALLEST = sound(n=1, start=0, finals=(), arcs=())
