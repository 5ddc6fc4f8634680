"""Paper 01 in plain Python, for the limit cases: applying a string (a code there) and trimming, with refusals 9 to 12, and arcs for any symbol
(paper 02, Points 5 and 6)."""
from functools import lru_cache

from model import ARCS, BARRED, BYTES, STATES, Arc, Final, Transducer, arcs_of, built_conditions, byte_conditions, decode, encode, fits, passed, split


def string_wrong(string):
    return len(string) > 64 or any(x in (0, BARRED) for x in string)


@lru_cache(maxsize=1)
def applied(string, data):
    """The lattice of a sound transducer before trimming, however many states and arcs it has, and the arc that each of its arcs comes from."""
    t = decode(split(data)[0])
    pairs, number_of, arcs, origins = [(0, t.start)], {(0, t.start): 0}, [], []
    for number, (place, state) in enumerate(pairs):
        for i, a in arcs_of(t, state):
            symbol = string[place] if place < len(string) else 0
            if a.input == 0:
                target, symbol = (place, a.target), 0
            elif fits(t, a, symbol):
                target = (place + 1, a.target)
            else:
                continue
            if target not in number_of:
                number_of[target] = len(pairs)
                pairs.append(target)
            arcs.append(Arc(number, symbol, passed(a, symbol), number_of[target], a.weight))
            origins.append(i)
    weights = dict(t.finals)
    finals = [Final(number, weights[state]) for number, (place, state) in enumerate(pairs) if place == len(string) and state in weights]
    return Transducer(len(pairs), len(arcs), len(finals), 0, finals, arcs), origins


def closure(states, arcs):
    """The states that arcs, given as pairs, lead to from some states."""
    onward = {}
    for x, y in arcs:
        onward.setdefault(x, []).append(y)
    found, todo = set(states), list(states)
    while todo:
        fresh = set(onward.get(todo.pop(), ())) - found
        found |= fresh
        todo += fresh
    return found


def trimmed(t):
    """What lies on an accepting path, in its order, renumbered; and the numbers of the arcs that are kept."""
    forth = closure({t.start}, [(x.source, x.target) for x in t.arcs])
    back = closure({x.state for x in t.finals}, [(x.target, x.source) for x in t.arcs])
    kept = sorted(forth & back)
    if not kept:
        return Transducer(1, 0, 0, 0, [], []), []
    number = {s: k for k, s in enumerate(kept)}
    finals = [Final(number[x.state], x.weight) for x in t.finals if x.state in number]
    origins = [i for i, x in enumerate(t.arcs) if x.source in number and x.target in number]
    arcs = [t.arcs[i]._replace(source=number[t.arcs[i].source], target=number[t.arcs[i].target]) for i in origins]
    return Transducer(len(kept), len(arcs), len(finals), number[t.start], finals, arcs), origins


# The buffers of applying and of trimming, by their number: the least length.
APPLY_LEAST = {10: BYTES, 11: ARCS, 12: STATES}
TRIM_LEAST = {13: BYTES, 14: ARCS}


def behind(buffers, runs):
    return {k: runs[k] + [0] * (len(buffers[k]) - len(runs[k])) for k in buffers}


def short(lengths, least):
    return [10] if any(lengths[k] < least[k] for k in least) else []


def apply_conditions(string, data, lengths):
    """Which of 1 to 12 hold, as they are tested."""
    held = sorted(byte_conditions(data))
    sound = not held
    held += [9] if string_wrong(string) else []
    held += short(lengths, APPLY_LEAST)
    if sound:
        held += sorted(built_conditions(applied(string, data)[0]))
    return held


def apply(string, data, buffers):
    """The refusal, the length and the buffers after applying a string."""
    held = apply_conditions(string, data, {k: len(cells) for k, cells in buffers.items()})
    if held and held[0] <= 10:
        return held[0], 0, buffers
    if held:
        return held[0], 0, {k: [0] * len(cells) for k, cells in buffers.items()}
    whole, arcs = applied(string, data)
    lattice, kept = trimmed(whole)
    written = list(encode(lattice))
    return 0, len(written), behind(buffers, {10: written, 11: [arcs[i] for i in kept], 12: []})


def trim_conditions(data, lengths):
    return sorted(byte_conditions(data)) + short(lengths, TRIM_LEAST)


def trim(data, buffers):
    """The refusal, the length and the buffers after trimming."""
    held = trim_conditions(data, {k: len(cells) for k, cells in buffers.items()})
    if held:
        return held[0], 0, buffers
    t, kept = trimmed(decode(split(data)[0]))
    written = list(encode(t))
    return 0, len(written), behind(buffers, {13: written, 14: kept})
