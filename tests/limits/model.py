"""Paper 01, with the weights of paper 02 (Point 8) and its label for any symbol (Points 5 and 6), in plain Python, for the limit cases: the bytes of a
transducer (a table there), refusals 1 to 8, reading and writing, and composition (the join there) with refusals 10 to 13 and 18.

Written from the paper alone and made to be read, not to be fast: each refusal is the sentence of the paper as a test of
its own, so that a case can say which conditions hold together.
"""
import struct
from collections import namedtuple
from functools import lru_cache

STATES, ARCS, WEIGHT, BARRED, BYTES = 1024, 3072, 1000000, 65535, 59404

# As an input it fits each symbol that no arc of its state has as its input, as an output it passes on the symbol that was read.
ANY = 65535

Final = namedtuple("Final", "state weight")
Arc = namedtuple("Arc", "source input output target weight")
Transducer = namedtuple("Transducer", "n m f start finals arcs")


def record(kind, body):
    return struct.pack("<HH", len(body), kind) + body


def head_record(n, m, f, start):
    return record(1, struct.pack("<HHHH", n, m, f, start))


def final_record(final):
    return record(2, struct.pack("<Hi", *final))


def arc_record(arc):
    return record(3, struct.pack("<HHHHi", *arc))


def encode(t):
    parts = [head_record(t.n, t.m, t.f, t.start)]
    parts += [final_record(x) for x in t.finals]
    parts += [arc_record(x) for x in t.arcs]
    return b"".join(parts)


def split(data):
    """The records of some bytes, up to the end or to the first that runs past it; and whether none does."""
    found, at = [], 0
    while at < len(data):
        if len(data) < at + 4:
            return found, False
        size, kind = struct.unpack_from("<HH", data, at)
        if len(data) < at + 4 + size:
            return found, False
        found.append((kind, data[at + 4 : at + 4 + size]))
        at += 4 + size
    return found, True


SIZES = {1: 8, 2: 6, 3: 12}


def ordered(records):
    """Whether kinds, lengths and their order are as the paper has them."""
    kinds = [kind for kind, _ in records]
    sizes_good = all(SIZES.get(kind) == len(body) for kind, body in records)
    return sizes_good and kinds[:1] == [1] and kinds.count(1) == 1 and kinds == sorted(kinds)


def decode(records):
    """The transducer in some records; those of a wrong length are passed over, and a missing head counts as zeros."""
    whole = [(kind, body) for kind, body in records if SIZES.get(kind) == len(body)]
    heads = [struct.unpack("<HHHH", body) for kind, body in whole if kind == 1]
    n, m, f, start = heads[0] if heads else (0, 0, 0, 0)
    finals = [Final(*struct.unpack("<Hi", body)) for kind, body in whole if kind == 2]
    arcs = [Arc(*struct.unpack("<HHHHi", body)) for kind, body in whole if kind == 3]
    return Transducer(n, m, f, start, finals, arcs)


def beyond(weight):
    """Both ends are guarded."""
    return not -WEIGHT <= weight <= WEIGHT


def head_wrong(t):
    return not (1 <= t.n <= STATES and 0 <= t.m <= ARCS and 0 <= t.f <= t.n and t.start < t.n)


def content_conditions(t):
    """Which of 5 to 8 hold of the finals and arcs of a transducer."""
    held = set()
    numbers = [x.state for x in t.finals] + [x.source for x in t.arcs] + [x.target for x in t.arcs]
    if any(number >= t.n for number in numbers):
        held.add(5)
    rising = all(x.state < y.state for x, y in zip(t.finals, t.finals[1:]))
    staying = all(x.source <= y.source for x, y in zip(t.arcs, t.arcs[1:]))
    if not rising or not staying:
        held.add(6)
    if any(x.output == ANY and x.input != ANY for x in t.arcs):
        held.add(7)
    if any(beyond(x.weight) for x in t.finals + t.arcs):
        held.add(8)
    return held


def byte_conditions(data):
    """Which of 1 to 8 hold of some bytes, each looked at by itself."""
    records, framed = split(data)
    t = decode(records)
    held = content_conditions(t)
    if not framed:
        held.add(1)
    if not ordered(records):
        held.add(2)
    if head_wrong(t):
        held.add(3)
    if len(t.finals) != t.f or len(t.arcs) != t.m:
        held.add(4)
    return held


# The four buffers of reading, by their number: the least length.
LEAST = {1: STATES, 2: STATES, 3: 4 * ARCS, 4: ARCS}


def read_conditions(data, lengths):
    held = byte_conditions(data)
    if any(lengths[k] < LEAST[k] for k in LEAST):
        held.add(10)
    return held


def read(data, buffers):
    """The refusal, the four numbers and the buffers after reading. `buffers` has the lent cells by number."""
    held = read_conditions(data, {k: len(cells) for k, cells in buffers.items()})
    if held:
        return min(held), (0, 0, 0, 0), buffers
    t = decode(split(data)[0])
    runs = {
        1: [x.state for x in t.finals],
        2: [x.weight for x in t.finals],
        3: [field for x in t.arcs for field in x[:4]],
        4: [x.weight for x in t.arcs],
    }
    after = {k: runs[k] + [0] * (len(buffers[k]) - len(runs[k])) for k in buffers}
    return 0, (t.n, t.m, t.f, t.start), after


def given(numbers, runs):
    """The transducer that four numbers and four runs give: the first f and m of them."""
    n, m, f, start = numbers
    states, weights, fields, arc_weights = runs
    finals = [Final(*x) for x in zip(states[:f], weights[:f])]
    quads = [fields[i : i + 4] for i in range(0, len(fields) - 3, 4)]
    arcs = [Arc(*quad, weight) for quad, weight in zip(quads[:m], arc_weights[:m])]
    return Transducer(n, m, f, start, finals, arcs)


def write_conditions(numbers, runs, room):
    n, m, f, start = numbers
    t = given(numbers, runs)
    held = content_conditions(t)
    if head_wrong(t):
        held.add(3)
    states, weights, fields, arc_weights = runs
    if len(states) < f or len(weights) < f or len(fields) < 4 * m or len(arc_weights) < m:
        held.add(4)
    if room < BYTES:
        held.add(10)
    return held


def write(numbers, runs, out):
    """The refusal, the length and the buffer after writing."""
    held = write_conditions(numbers, runs, len(out))
    if held:
        return min(held), 0, out
    data = list(encode(given(numbers, runs)))
    return 0, len(data), data + [0] * (len(out) - len(data))


# A step from a triple: where it leads, its labels and weight, and its left and right arc, 65,535 where that side stood still.
Step = namedtuple("Step", "target input output weight origins")


def arcs_of(t, state):
    """The arcs of a state with their numbers, in order."""
    return [(i, x) for i, x in enumerate(t.arcs) if x.source == state]


def fits(t, arc, symbol):
    """Whether an arc fits a symbol; the empty label is none. One for any symbol fits what no arc of its state has as its input (Point 6)."""
    named = arc.input == ANY and any(x.source == arc.source and x.input == symbol for x in t.arcs)
    return symbol != 0 and (arc.input == symbol or arc.input == ANY and not named)


def passed(arc, symbol):
    """What an arc writes that reads a symbol."""
    return symbol if arc.output == ANY else arc.output


def steps_of_left(left, right, p, q, mark):
    for i, a in arcs_of(left, p):
        if a.output != 0:
            for j, b in arcs_of(right, q):
                if fits(right, b, a.output):
                    yield Step((a.target, b.target, 0), a.input, passed(b, a.output), a.weight + b.weight, (i, j))
        elif mark == 0:
            yield Step((a.target, q, 0), a.input, 0, a.weight, (i, BARRED))


def steps_of_right(right, p, q):
    for j, b in arcs_of(right, q):
        if b.input == 0:
            yield Step((p, b.target, 1), 0, b.output, b.weight, (BARRED, j))


def steps(left, right, triple):
    """What comes from a triple: left state, right state, mark."""
    p, q, mark = triple
    return [*steps_of_left(left, right, p, q, mark), *steps_of_right(right, p, q)]


@lru_cache(maxsize=1)
def composed(left_bytes, right_bytes):
    """The joined table of two sound ones, however many states and arcs it has, and the origins of its arcs, left and right in turn."""
    left, right = decode(split(left_bytes)[0]), decode(split(right_bytes)[0])
    triples, arcs, origins = [(left.start, right.start, 0)], [], []
    for number, triple in enumerate(triples):
        for step in steps(left, right, triple):
            if step.target not in triples:
                triples.append(step.target)  # and so it is served later, in its turn
            arcs.append(Arc(number, step.input, step.output, triples.index(step.target), step.weight))
            origins += step.origins
    left_finals, right_finals = dict(left.finals), dict(right.finals)
    finals = [
        Final(number, left_finals[p] + right_finals[q])
        for number, (p, q, _) in enumerate(triples)
        if p in left_finals and q in right_finals
    ]
    return Transducer(len(triples), len(arcs), len(finals), 0, finals, arcs), origins


# The three buffers of composition, by their number: the least length.
COMPOSE_LEAST = {6: BYTES, 7: 2 * ARCS, 8: STATES}


def built_conditions(t):
    """Which of 11 to 13 hold of a joined table."""
    held = set()
    if t.n > STATES:
        held.add(11)
    if t.m > ARCS:
        held.add(12)
    if any(beyond(x.weight) for x in t.finals + t.arcs):
        held.add(13)
    return held


def any_condition(data):
    """18, where an arc of a sound table has input 65,535, reached or not."""
    return [18] if not byte_conditions(data) and any(x.input == ANY for x in decode(split(data)[0]).arcs) else []


def compose_conditions(left, right, lengths):
    """Which of 1 to 13 and 18 hold, as they are tested: of the left bytes, of the right ones, of the lent lengths, of what is joined."""
    held = [*sorted(byte_conditions(left)), *any_condition(left), *sorted(byte_conditions(right))]
    sound = not held
    if any(lengths[k] < COMPOSE_LEAST[k] for k in COMPOSE_LEAST):
        held.append(10)
    if sound:
        held += sorted(built_conditions(composed(left, right)[0]))
    return held


def compose(left, right, buffers):
    """The refusal, the length and the buffers after composition. `buffers` has the lent cells by number."""
    held = compose_conditions(left, right, {k: len(cells) for k, cells in buffers.items()})
    if held and held[0] not in (11, 12, 13):
        return held[0], 0, buffers
    if held:
        return held[0], 0, {k: [0] * len(cells) for k, cells in buffers.items()}
    t, origins = composed(left, right)
    runs = {6: list(encode(t)), 7: origins, 8: []}
    after = {k: runs[k] + [0] * (len(buffers[k]) - len(runs[k])) for k in buffers}
    return 0, len(runs[6]), after
