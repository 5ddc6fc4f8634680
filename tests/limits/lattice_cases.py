"""The limit cases of applying a string and of trimming, with the refusal of each written out by hand."""
import struct
import sys

from compose_cases import ELSEWHERE, LAST_BYTES, NOWHERE, hidden_loop, line, loops, one_state
from lattice_model import APPLY_LEAST, TRIM_LEAST, apply, apply_conditions, applied, trim, trim_conditions, trimmed
from model import ARCS, BARRED, STATES, composed, decode, encode, split
from rows import EXACT, NONE, SMALLEST, agree, case, lend, sound, total

APPLY, TRIM = 5, 6
LATTICE_SHORT, LATTICE_ORIGINS_SHORT, PAIRS_SHORT = APPLY_LEAST
TRIMMED_SHORT, KEPT_SHORT = TRIM_LEAST

# Paper 01's last case: the joined table, code 1 3, the lattice and its origins.
LAST_JOINED = bytes.fromhex(LAST_BYTES)
LAST_LATTICE = """
    08 00 01 00  04 00 03 00 01 00 00 00
    06 00 02 00  03 00 01 00 00 00
    0c 00 03 00  00 00 01 00 04 00 01 00 05 00 00 00
    0c 00 03 00  01 00 03 00 00 00 02 00 01 00 00 00
    0c 00 03 00  02 00 00 00 05 00 03 00 04 00 00 00
"""
LAST_ORIGINS = "00 00  01 00  03 00"

# A string of two symbols takes each of its 1,536 loops twice.
HALF = one_state((ARCS // 2, 1, 2, 0), (1, 0, 3, 0))


def apply_row(want, name, string, data, room=NONE, also=(), before=None, after=None):
    """`before` and `after` have the states and arcs of the lattice before and after trimming, by hand."""
    name, string = f"apply, {name}:", tuple(string)
    whole, cut = lend(APPLY_LEAST, room)
    agree(name, want, apply_conditions(string, data, cut), also)
    if before and applied(string, data)[0][:2] != before or after and trimmed(applied(string, data)[0])[0][:2] != after:
        sys.exit(f"{name}: the row says {before} {after}, the model {applied(string, data)[0][:2]}")
    refusal, length, left = apply(string, data, {k: whole[k][: cut[k]] for k in APPLY_LEAST})
    sums = [total(left[k] + whole[k][cut[k] :]) for k in APPLY_LEAST]
    body = struct.pack(f"<H{len(string)}H", len(string), *string) + data
    return case(APPLY, room, name, body), "{} refusal {} length {} sums {} {} {}".format(name, refusal, length, *sums)


def trim_row(want, name, data, room=NONE, also=(), after=None, same=False):
    """`after` has the states and arcs of what is kept, by hand."""
    name = f"trim, {name}:"
    whole, cut = lend(TRIM_LEAST, room)
    agree(name, want, trim_conditions(data, cut), also)
    if want == 0:
        t = trimmed(decode(split(data)[0]))[0]
        if after and t[:2] != after or same and encode(t) != data:
            sys.exit(f"{name}: the row says {after} {same}, the model {t[:2]} {encode(t) == data}")
    refusal, length, left = trim(data, {k: whole[k][: cut[k]] for k in TRIM_LEAST})
    sums = [total(left[k] + whole[k][cut[k] :]) for k in TRIM_LEAST]
    return case(TRIM, room, name, data), "{} refusal {} length {} sums {} {}".format(name, refusal, length, *sums)


def last_row():
    t, origins = applied((1, 3), LAST_JOINED)
    lattice, kept = trimmed(t)
    if encode(lattice) != bytes.fromhex(LAST_LATTICE) or struct.pack("<3H", *[origins[i] for i in kept]) != bytes.fromhex(LAST_ORIGINS):
        sys.exit("paper 01's last case: the model applies to something else than is written here")
    return apply_row(0, "paper 01's last case", (1, 3), LAST_JOINED, before=(5, 4), after=(4, 3))


# Paper 02's example of Point 6.
EXAMPLE = sound(n=2, start=0, finals=((1, 0),), arcs=((0, 6, 6, 1, 4), (0, 65535, 65535, 1, 1)))


def apply_rows():
    a = apply_row
    copy = one_state((1, 5, 6, 2), weight=3)
    yield last_row()
    yield a(0, "the empty string, final start", (), copy, after=(1, 0))
    yield a(0, "the empty string, nothing final", (), SMALLEST, after=(1, 0))
    yield a(0, "64 symbols", [5] * 64, copy, after=(65, 64))
    yield a(9, "65 symbols", [5] * 65, copy)
    yield a(9, "an empty label in the string", (5, 0, 5), copy)
    yield a(9, "a barred label in the string", (5, BARRED), copy)
    yield a(0, "label 65534 in the string", (65534,), one_state((1, 65534, 65534, 0)), after=(2, 1))
    yield a(0, "a string that nothing reads", (7,), copy, before=(1, 0), after=(1, 0))
    yield a(0, "a string that ends too early", (1,), line(3), before=(2, 1), after=(1, 0))
    silent = sound(n=3, start=2, finals=((0, 4),), arcs=((0, 0, 8, 0, 1), (1, 1, 0, 0, 2), (2, 0, 9, 1, 3), (2, 1, 3, 2, 4)))
    yield a(0, "arcs that read nothing", (1, 1), silent, after=(4, 4))
    less = sound(n=2, start=0, finals=((1, -1000000),), arcs=((0, 1, 3, 1, -1000000), (0, 1, 4, 1, 1000000), (1, 0, 5, 0, -1)))
    yield a(0, "weights below 0", (1, 1), less, after=(4, 5))
    for output in (65535, 9, 0):
        yield a(0, f"65535:{output} applied", (5, 65534), one_state((1, 65535, output, 2)), after=(3, 2))
    mixed = sound(n=2, start=0, finals=((1, 0),), arcs=((0, 65535, 65535, 1, 1), (0, 6, 7, 1, 4), (0, 0, 8, 1, 2), (1, 65535, 0, 1, 5)))
    yield a(0, "named and any arcs, mixed", (6, 7), mixed, after=(4, 4))
    yield a(0, "paper 02's example of Point 6, code 6", (6,), EXAMPLE, after=(2, 1))
    yield a(0, "paper 02's example of Point 6, code 7", (7,), EXAMPLE, after=(2, 1))
    yield a(0, "a named arc behind the any arc", (6,), one_state((1, 65535, 65535, 1), (1, 6, 6, 4)), after=(2, 1))
    around = one_state((1, 65535, 65535, 1), (1, 6, 6, 4), (1, 65535, 9, 1), (1, 6, 8, 2))
    yield a(0, "any arcs before and behind named ones", (6, 7), around, after=(3, 4))
    yield a(0, "two any arcs", (6,), one_state((1, 65535, 65535, 1), (1, 7, 7, 4), (1, 65535, 9, 1)), after=(2, 2))
    yield a(0, "an empty input hides nothing", (6,), one_state((1, 0, 8, 1), (1, 65535, 9, 1)), after=(2, 3))
    yield a(0, "a named arc of another state", (6, 6), ELSEWHERE, after=(3, 2))
    yield a(0, "a named arc that leads nowhere", (6,), NOWHERE, after=(1, 0))
    rungs = [x for s in range(19) for x in ((s, 6, 6, s, 0), (s, 65535, 65535, min(s + 1, 18), 0))]
    hidden = sound(n=19, start=0, finals=((0, 0),), arcs=rungs)
    yield a(0, "11 that hidden arcs would give", (6,) * 64, hidden, after=(65, 64))
    yield a(0, "12 that hidden arcs would give", (6,) * 64, one_state((1, 6, 6, 0), (48, 65535, 7, 0)), after=(65, 64))
    yield a(0, "14 that a hidden arc would give", (), encode(composed(*hidden_loop(1))[0]), after=(2, 1))
    bits = one_state((1, 43690, 6, 2), (1, 21845, 7, 2))
    yield a(0, "inputs whose bits make up 65535", (43690, 21845), bits, after=(3, 2))
    yield a(0, "inputs whose bits make up 65535, and another symbol", (8,), bits, after=(1, 0))
    yield a(0, "any arcs and nothing left to read", (), one_state((1, 65535, 65535, 2)), after=(1, 0))
    yield from apply_size_rows()
    yield from apply_room_rows()


# 11 and 12 before trimming, on either side, and both at once.
def apply_size_rows():
    a = apply_row
    dead = sound(n=STATES, start=0, finals=((0, 0),), arcs=[(s, 0, 1, s + 1, 0) for s in range(STATES - 1)])
    yield a(0, "1024 states before trimming, none of them useful", (1,), dead, before=(1024, 1023), after=(1, 0))
    yield a(0, "1024 states before trimming, one of them useful", (), dead, before=(1024, 1023), after=(1, 0))
    more = sound(n=STATES, start=0, finals=((0, 0),), arcs=[(0, 1, 0, 0, 0)] + [(s, 0, 1, s + 1, 0) for s in range(STATES - 1)])
    yield a(11, "1025 states before trimming", (1,), more)
    full = one_state((ARCS, 1, 2, 0))
    yield a(0, "3072 arcs", (1,), full, after=(2, 3072))
    yield a(12, "3075 arcs", (1, 1), HALF)
    wide = sound(n=STATES, start=0, finals=((0, 0),), arcs=[(0, 1, 0, 0, 0)] * 1100 + [(s, 0, 1, s + 1, 0) for s in range(STATES - 1)])
    yield a(11, "11 and 12 at once", (1, 1, 1), wide, also=[12])


# The transducer's 1 to 8, 9, 10 with nothing touched, then 11.
def apply_room_rows():
    a = apply_row
    copy = one_state((1, 5, 6, 2), weight=3)
    yield a(1, "1 before 9", [0], SMALLEST[:-1], also=[9])
    yield a(8, "8 before 9 and 10", [0], sound(arcs=((0, 1, 2, 1, 1000001),)), room=PAIRS_SHORT, also=[9, 10])
    yield a(9, "9 before 10", [5] * 65, copy, room=LATTICE_SHORT, also=[10])
    yield a(10, "bytes one short", (5,), copy, room=LATTICE_SHORT)
    yield a(10, "origins one short", (5,), copy, room=LATTICE_ORIGINS_SHORT)
    yield a(10, "pairs one short", (5,), copy, room=PAIRS_SHORT)
    yield a(10, "10 before 12", (1, 1), HALF, room=PAIRS_SHORT, also=[12])
    yield a(0, "each buffer at its least length", (5,), copy, room=EXACT)


def trim_rows():
    t = trim_row
    yield t(0, "the smallest transducer", SMALLEST, after=(1, 0), same=True)
    yield t(0, "nothing accepts", sound(n=4, start=2, finals=((0, 5),), arcs=((0, 1, 2, 2, 3), (2, 1, 2, 3, 3))), after=(1, 0))
    from_3 = sound(n=5, start=3, finals=((4, 7),), arcs=((0, 1, 1, 4, 0), (1, 2, 2, 4, 1), (3, 3, 3, 1, 2), (3, 4, 4, 2, 3)))
    yield t(0, "a start that is not state 0", from_3, after=(3, 2))
    ring = sound(n=4, start=0, finals=((1, 0),), arcs=((0, 1, 2, 1, 0), (0, 1, 3, 2, 0), (2, 0, 4, 3, 0), (3, 0, 5, 2, 0)))
    yield t(0, "a ring on no accepting path", ring, after=(2, 1))
    apart = sound(n=4, start=0, finals=((1, 0),), arcs=((0, 1, 2, 1, 0), (2, 0, 4, 3, 0), (3, 0, 5, 1, 0), (3, 0, 6, 2, 0)))
    yield t(0, "states that only lead to a final one", apart, after=(2, 1))
    yield t(0, "one already trimmed", sound(n=2, start=1, finals=((0, 5),), arcs=((0, 1, 2, 1, 3), (1, 3, 0, 0, 1))), after=(2, 2), same=True)
    backwards = sound(n=STATES, start=STATES - 1, finals=((0, 1),), arcs=[(s, 1, 2, s - 1, s) for s in range(1, STATES)])
    yield t(0, "a line of 1024 states numbered backwards", backwards, after=(1024, 1023), same=True)
    arcs = loops(0, [(3, 1, 2, 0)]) + [(0, 1, 1, 2, 5), (0, 9, 9, 1, 4), (0, 2, 1, 2, 5), (1, 8, 8, 0, 3)]
    yield t(0, "each second arc kept", sound(n=3, start=0, finals=((1, 0),), arcs=arcs), after=(2, 5))
    less = sound(n=3, start=0, finals=((1, -1), (2, 9)), arcs=((0, 1, 1, 1, -1000000), (0, 1, 1, 0, -1), (2, 1, 1, 1, -7)))
    yield t(0, "weights below 0, and a ring below 0", less, after=(2, 2))
    wild = sound(n=3, start=0, finals=((1, 0),), arcs=((0, 65535, 6, 2, 1), (0, 65535, 65535, 1, 2), (1, 65535, 0, 1, 3)))
    yield t(0, "arcs for any symbol", wild, after=(2, 2))
    yield t(5, "5", sound(arcs=((0, 1, 2, 4, 3),)))
    yield t(1, "1 before 10", SMALLEST[:-1], room=TRIMMED_SHORT, also=[10])
    yield t(10, "bytes one short", SMALLEST, room=TRIMMED_SHORT)
    yield t(10, "origins one short", SMALLEST, room=KEPT_SHORT)
    yield t(0, "each buffer at its least length", ring, room=EXACT)
