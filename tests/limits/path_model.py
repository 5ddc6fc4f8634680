"""Paper 01, with refusal 19 of paper 02 (Point 8) and costs to come (Point 2), in plain Python, for the limit cases: the path count, the
k-th path (reading k there), the shortest one (the cheapest), and the least cost to come from each state."""
import sys

from lattice_model import behind, short, trimmed
from model import byte_conditions, decode, split

CELLS = 1023

sys.setrecursionlimit(5000)  # paths_from goes as deep as a path is long

# The buffers of a path that is told, by their number: the least length.
TELL_LEAST = {15: CELLS, 16: CELLS}

# The cells of costs to come, and what stands in one for none.
COSTS_LEAST = {17: 1024}
NO_COST = 1000000000001


def endless(t):
    """Infinitely many accepting paths: what lies on accepting paths has a ring, so that states that lead to no other cannot be taken away
    until none is left."""
    kept, _ = trimmed(t)
    left, arcs = set(range(kept.n)), [(x.source, x.target) for x in kept.arcs]
    while left:
        arcs = [(x, y) for x, y in arcs if x in left and y in left]
        fewer = {x for x, _ in arcs}
        if fewer == left:
            return True
        left = fewer
    return False


def paths_from(finals, arcs, state, most):
    """The accepting paths from a state in path order, as far as the first `most`. Paths are not infinitely many."""
    found = [[]] if state in finals else []
    for i, target in arcs.get(state, ()):
        if len(found) < most:
            found += [[i] + rest for rest in paths_from(finals, arcs, target, most - len(found))]
    return found[:most]


def paths(t, most):
    kept, numbers = trimmed(t)
    arcs = {}
    for i, a in enumerate(kept.arcs):
        arcs.setdefault(a.source, []).append((numbers[i], a.target))
    return paths_from({x.state for x in kept.finals}, arcs, kept.start, most)


def count_conditions(data):
    held = sorted(byte_conditions(data))
    if not held and endless(decode(split(data)[0])):
        held.append(14)
    return held


def count(data):
    """The refusal and the count."""
    held = count_conditions(data)
    return (held[0], 0) if held else (0, len(paths(decode(split(data)[0]), 99)))


def cost(t, path):
    end = t.arcs[path[-1]].target if path else t.start
    return sum(t.arcs[i].weight for i in path) + dict(t.finals)[end]


def told(t, path, buffers):
    labels = [t.arcs[i].output for i in path if t.arcs[i].output]
    return (cost(t, path), len(path), len(labels)), behind(buffers, {15: list(path), 16: labels})


def nth_conditions(data, k, lengths):
    held = sorted(byte_conditions(data)) + short(lengths, TELL_LEAST)
    if not byte_conditions(data):
        t = decode(split(data)[0])
        if endless(t):
            held.append(14)
        elif k >= len(paths(t, 99)):
            held.append(15)
    return held


def nth(data, k, buffers):
    """The refusal, the three numbers and the buffers after the k-th path."""
    held = nth_conditions(data, k, {x: len(cells) for x, cells in buffers.items()})
    if held:
        return held[0], (0, 0, 0), buffers
    t = decode(split(data)[0])
    return 0, *told(t, paths(t, 99)[k], buffers)


def accepts(t):
    """Whether any path does: what is trimmed away then is not all."""
    return bool(trimmed(t)[0].finals)


def ring_below_zero(t):
    """Whether a ring of arcs on an accepting path sums below zero. What each state can save by going along arcs that lie on accepting
    paths, one more in each round: without such a ring, what saves most passes no state twice, so that n rounds find nothing new."""
    kept, _ = trimmed(t)
    saved = [0] * kept.n
    for _ in range(kept.n):
        before = list(saved)
        for a in kept.arcs:
            saved[a.source] = min(saved[a.source], a.weight + before[a.target])
        if saved == before:
            return False
    return True


def shortest(t):
    """The accepting path of least cost, then fewest non-empty output labels, then fewest arcs, then first in path order, where something
    accepts and no ring below zero lies on an accepting path. From each state on an accepting path the best one known, until no arc makes a
    better one."""
    kept, numbers = trimmed(t)
    best = {s: (w, 0, 0, []) for s, w in kept.finals}
    changed = True
    while changed:
        changed = False
        for i, a in reversed(list(enumerate(kept.arcs))):
            if a.target in best:
                c, printed, n, path = best[a.target]
                other = (c + a.weight, printed + (a.output != 0), n + 1, [numbers[i]] + path)
                if a.source not in best or other < best[a.source]:
                    best[a.source], changed = other, True
    return best[kept.start][3]


def shortest_conditions(data, lengths):
    held = sorted(byte_conditions(data)) + short(lengths, TELL_LEAST)
    if not byte_conditions(data):
        t = decode(split(data)[0])
        if not accepts(t):
            held.append(16)
        elif ring_below_zero(t):
            held.append(19)
    return held


def shortest_path(data, buffers):
    """The refusal, the three numbers and the buffers after the shortest path."""
    held = shortest_conditions(data, {x: len(cells) for x, cells in buffers.items()})
    if held:
        return held[0], (0, 0, 0), buffers
    t = decode(split(data)[0])
    return 0, *told(t, shortest(t), buffers)


def costs_back(t):
    """By state, the least cost to come, and none where nothing final can be reached; or that a ring below zero leads to a final state. Final weights start
    the sum, and arcs are added going back: only from states that lead to a final one, so that what still falls after n rounds falls for ever."""
    costs = dict(t.finals)
    for _ in range(t.n):
        before = dict(costs)
        for a in t.arcs:
            if a.target in before:
                costs[a.source] = min(costs.get(a.source, 10**18), a.weight + before[a.target])
        if costs == before:
            return costs
    return None


def distance_conditions(data, lengths):
    held = sorted(byte_conditions(data)) + short(lengths, COSTS_LEAST)
    if not byte_conditions(data) and costs_back(decode(split(data)[0])) is None:
        held.append(19)
    return held


def distance(data, buffers):
    """The refusal, and the cells after costs to come."""
    held = distance_conditions(data, {x: len(cells) for x, cells in buffers.items()})
    if held:
        return held[0], buffers
    costs = costs_back(decode(split(data)[0]))
    return 0, behind(buffers, {17: [costs.get(s, NO_COST) for s in range(1024)]})
