"""Weighted transducers ("tables") over a proved library: read, written, composed, applied to a string, trimmed, counted, searched, listed.

A table is `bytes`. `write` makes them from states, start, final states and arcs, and `read` gives these back:

>>> left = write(Table(states=2, start=0, finals=[Final(1, 0)], arcs=[Arc(0, 1, 1, 1, 0), Arc(0, 2, 2, 1, 0), Arc(0, 2, 1, 1, 3)]))
>>> right = write(Table(3, 0, [Final(2, 0)], [Arc(0, 1, 20, 1, 0), Arc(0, 2, 21, 2, 0), Arc(1, 0, 30, 2, 1)]))
>>> read(left).arcs[2]
Arc(source=0, input=2, output=1, target=1, weight=3)

What the left table writes, the right one reads; a code is applied, and the accepting paths of its lattice are the code's readings:

>>> lattice = apply([2], compose(left, right).table).table
>>> count(lattice)
2
>>> for path in paths(lattice):
...     print(path.cost, path.labels)
0 [21]
4 [20, 30]
>>> shortest(lattice).labels
[21]

`readings` does all of this in one call, and `listing` gives the readings as text:

>>> readings(left, right, [2])
2
>>> print(listing(left, right, b"\\x02\\x00").text, end="")
readings 2
0 0 21
1 4 20 30

`cascade`, `cascade_readings` and `cascade_listing` apply the code to the left table before anything is composed, for tables whose composition
would be too large; the left table may have arcs for any symbol:

>>> cascade_readings(left, right, [2])
2
>>> [path.labels for path in paths(cascade(left, right, [2]).table)]
[[21], [20, 30]]

A refusal is an exception with a number, a name and words:

>>> count(b"no table")
Traceback (most recent call last):
    ...
forthwn.Refusal: refused 1: a record runs past the end of the bytes

The shared object is the file that the environment names in FORTHWN_LIBRARY, else libforthwn.so beside this module, in the `lib` it is
installed under, or where the loader looks. Every call ends, has no state of its own, and may run in several threads at once.
"""
import ctypes
import os
from array import array
from pathlib import Path as _File
from typing import Iterator, List, NamedTuple, Optional, Sequence

REFUSALS = {
    1: ("CUT_SHORT", "a record runs past the end of the bytes"),
    2: ("BAD_RECORDS", "records are not of the kinds, lengths or order of a table"),
    3: ("BAD_HEAD", "the number of states, arcs or finals, or the start, is out of range"),
    4: ("BAD_NUMBER", "final or arc records are not as many as the head says"),
    5: ("BAD_STATE", "a state number is not below the number of states"),
    6: ("BAD_ORDER", "final states do not rise, or sources of arcs fall"),
    7: ("BAD_LABEL", "output 65535 beside another input"),
    8: ("BAD_WEIGHT", "a weight below -1000000 or above 1000000"),
    9: ("BAD_CODE", "the code has more than 64 labels, half a label, or a label 0 or 65535"),
    10: ("SHORT_BUFFER", "a lent buffer is too short"),
    11: ("TOO_MANY_STATES", "more than 1024 states are reached"),
    12: ("TOO_MANY_ARCS", "more than 3072 arcs leave the reached states"),
    13: ("TOO_HEAVY", "a composed arc or final weight below -1000000 or above 1000000"),
    14: ("ENDLESS", "infinitely many accepting paths"),
    15: ("NO_SUCH_PATH", "no path of that number"),
    16: ("NO_PATH", "no accepting path"),
    18: ("ANY_INPUT", "an arc for any symbol (input 65535) where none may be"),
    19: ("NEGATIVE_CYCLE", "a cycle below 0 on a path to a final state"),
}
MANY = 99
"""The count that stands for 99 or more."""
ANY = 65535
"""The label for any symbol, as an input and, beside that input alone, as an output."""

# Lengths of the buffers that the library is lent, in cells.
_TABLE, _ORIGINS, _LATTICE_ORIGINS, _STATES, _PATH, _FINALS, _FIELDS, _WEIGHTS, _TEXT = 59404, 6144, 3072, 1024, 1023, 1024, 12288, 3072, 602996
_STOOD_STILL = 65535
_CELLS, _NO_COST = 1024, 1000000000001

_u8, _u16, _u32, _size = ctypes.c_uint8, ctypes.c_uint16, ctypes.c_uint32, ctypes.c_size_t
_WEIGHT, _WEIGHT_CODE, _COST = ctypes.c_int32, "i", ctypes.c_int64


class Refusal(Exception):
    """Why a call was refused: the first number whose condition holds, in the order in which the call tests, its name, which is that of the C header
    without FORTHWN_, and words.

    >>> refusal = Refusal(14)
    >>> refusal.number, refusal.name, refusal.words
    (14, 'ENDLESS', 'infinitely many accepting paths')
    """

    def __init__(self, number: int):
        self.number = number
        self.name, self.words = REFUSALS.get(number, ("UNKNOWN", "no refusal of that number"))
        super().__init__(number)

    def __str__(self):
        return f"refused {self.number}: {self.words}"


class Final(NamedTuple):
    """A final state and its weight, -1,000,000 to 1,000,000."""
    state: int
    weight: int


class Arc(NamedTuple):
    """An arc; label 0 reads or writes nothing, 1 to 65,534 are symbols; the weight is -1,000,000 to 1,000,000."""
    source: int
    input: int
    output: int
    target: int
    weight: int


class Table(NamedTuple):
    """What a table's bytes say. Final states rise, sources of arcs do not fall; an arc's number is its place."""
    states: int
    start: int
    finals: List[Final]
    arcs: List[Arc]


class Path(NamedTuple):
    """An accepting path: the sum of its weights, the numbers of its arcs, the non-empty labels it writes."""
    cost: int
    arcs: List[int]
    labels: List[int]


class Origin(NamedTuple):
    """The left arc and the right arc that an arc of a composition or of a cascade came from; None for a side that stood still."""
    left: Optional[int]
    right: Optional[int]


class Composed(NamedTuple):
    """The bytes of a composition or of a cascade, untrimmed, and for each of its arcs where it came from."""
    table: bytes
    origins: List[Origin]


class Traced(NamedTuple):
    """The bytes of a lattice or of a trimmed table, and for each of its arcs the arc of the given table that it came from."""
    table: bytes
    origins: List[int]


class Listing(NamedTuple):
    """A listing's text, and the refusal of the tables or the code that it says, None where it lists."""
    text: str
    said: Optional[Refusal]


class _Head(ctypes.Structure):
    _fields_ = [("states", _u32), ("arcs", _u32), ("finals", _u32), ("start", _u32)]


class _Told(ctypes.Structure):
    _fields_ = [("cost", _COST), ("arcs", ctypes.c_uint64), ("labels", ctypes.c_uint64)]


def _load():
    here = _File(__file__).resolve()
    near = [here.parent, *here.parents[1:4]]
    named = os.environ.get("FORTHWN_LIBRARY")
    found = next((str(p / "libforthwn.so") for p in near if (p / "libforthwn.so").is_file()), "libforthwn.so.0")
    library = ctypes.CDLL(named or found)
    table, told = [ctypes.c_void_p, _size], ctypes.c_void_p
    for name, arguments in {
        "forthwn_refusal": [*table],
        "forthwn_read": [*table * 5, told],
        "forthwn_write": [*[_u32] * 4, *table * 5, told],
        "forthwn_compose": [*table * 5, told],
        "forthwn_apply": [*table * 5, told],
        "forthwn_trim": [*table * 3, told],
        "forthwn_count": [*table, told],
        "forthwn_nth": [*table, _u32, *table * 2, told],
        "forthwn_shortest": [*table * 3, told],
        "forthwn_distance": [*table * 2],
        "forthwn_readings": [*table * 3, told],
        "forthwn_list": [*table * 4, told, told],
        "forthwn_cascade": [*table * 6, told],
        "forthwn_cascade_readings": [*table * 3, told],
        "forthwn_cascade_list": [*table * 4, told, told],
    }.items():
        function = getattr(library, name)
        function.argtypes, function.restype = arguments, _u32
    return library


_library = _load()


def _call(name, *arguments):
    """Calls the library: bytes and lent arrays go as pointer and length, single cells by reference, numbers as they are."""
    words = []
    for given in arguments:
        if isinstance(given, (bytes, ctypes.Array)):
            words += [given, len(given)]
        elif isinstance(given, array):
            words += [given.tobytes(), len(given)]
        else:
            words.append(given if isinstance(given, int) else ctypes.byref(given))
    refusal = getattr(_library, name)(*words)
    if refusal:
        raise Refusal(refusal)


def _bytes(given) -> bytes:
    """Whatever has bytes, but no number, which bytes() would take for a length."""
    return given if type(given) is bytes else bytes(memoryview(given))


def _labels(given: Sequence[int]) -> array:
    """Cells of 16 bits; a number that is none of them is an OverflowError. Bytes are no labels: array would take two of them for one."""
    if isinstance(given, (bytes, bytearray, memoryview)):
        raise TypeError("labels are numbers, and these are bytes")
    return array("H", given)


def _weights(given: Sequence[int]) -> array:
    return array(_WEIGHT_CODE, given)


def _number(given: int) -> int:
    """A number of 32 bits; a larger one stays too large."""
    if given < 0:
        raise ValueError(f"{given} is below 0")
    return min(given, 0xFFFFFFFF)


def check(table) -> None:
    """Raises the refusal (1 to 8) of bytes that are no table.

    >>> check(b"")
    Traceback (most recent call last):
        ...
    forthwn.Refusal: refused 2: records are not of the kinds, lengths or order of a table
    """
    _call("forthwn_refusal", _bytes(table))


def read(table) -> Table:
    """What a table's bytes say. Refusals 1 to 8."""
    states, weights = (_u16 * _FINALS)(), (_WEIGHT * _FINALS)()
    fields, arc_weights, head = (_u16 * _FIELDS)(), (_WEIGHT * _WEIGHTS)(), _Head()
    _call("forthwn_read", _bytes(table), states, weights, fields, arc_weights, head)
    finals = [Final(*x) for x in zip(states[: head.finals], weights)]
    return Table(head.states, head.start, finals, [Arc(*fields[4 * i : 4 * i + 4], arc_weights[i]) for i in range(head.arcs)])


def write(table: Table) -> bytes:
    """The bytes of a table. Refusals 3 and 5 to 8; a field that has no 16 bits, or a weight that has no 32, is an OverflowError.

    >>> write(Table(1, 0, [Final(0, 5)], [])).hex(" ", 2)
    '0800 0100 0100 0000 0100 0000 0600 0200 0000 0500 0000'
    >>> write(Table(1, 0, [Final(0, -5)], [])).hex(" ", 2)
    '0800 0100 0100 0000 0100 0000 0600 0200 0000 fbff ffff'
    >>> write(Table(1, 0, [Final(0, 1000001)], []))
    Traceback (most recent call last):
        ...
    forthwn.Refusal: refused 8: a weight below -1000000 or above 1000000
    """
    finals, arcs = [Final(*x) for x in table.finals], [Arc(*x) for x in table.arcs]
    numbers = [_number(x) for x in (table.states, len(arcs), len(finals), table.start)]
    out, length = (_u8 * _TABLE)(), _u32()
    _call(
        "forthwn_write", *numbers,
        _labels([x.state for x in finals]), _weights([x.weight for x in finals]),
        _labels([field for x in arcs for field in x[:4]]), _weights([x.weight for x in arcs]), out, length,
    )
    return bytes(out[: length.value])


def compose(left, right) -> Composed:
    """Composes two tables. Refusals 1 to 8 of the left one, 18 where it has an arc of input 65535, 1 to 8 of the right one, 11 to 13."""
    table, origins, length = (_u8 * _TABLE)(), (_u16 * _ORIGINS)(), _u32()
    _call("forthwn_compose", _bytes(left), _bytes(right), table, origins, (_u32 * _STATES)(), length)
    return _composed(table, origins, length)


def cascade(left, right, string: Sequence[int]) -> Composed:
    """Applies a string of 0 to 64 symbols to the left table and composes its lattice with the right one; origins are arcs of the two tables.
    The left table may have arcs of input 65535. Refusals 1 to 8 of the left one, 1 to 8 of the right one, 9, 11 and 12 of the lattice, 11 to 13.

    >>> one = Table(1, 0, [Final(0, 0)], [Arc(0, ANY, ANY, 0, 1)])
    >>> cascade(write(one), write(one), [7]).origins
    [Origin(left=0, right=0)]
    """
    table, origins, length = (_u8 * _TABLE)(), (_u16 * _ORIGINS)(), _u32()
    _call("forthwn_cascade", _bytes(left), _bytes(right), _labels(string), table, origins, (_u32 * _STATES)(), length)
    return _composed(table, origins, length)


def _composed(table, origins, length) -> Composed:
    made = bytes(table[: length.value])
    moved = [None if x == _STOOD_STILL else x for x in origins[: 2 * _arcs(made)]]
    return Composed(made, [Origin(*x) for x in zip(moved[::2], moved[1::2])])


def apply(string: Sequence[int], table) -> Traced:
    """Applies a string of 0 to 64 symbols: the lattice, trimmed, accepts by exactly the paths that read it. Refusals 1 to 9, 11, 12."""
    lattice, origins, length = (_u8 * _TABLE)(), (_u16 * _LATTICE_ORIGINS)(), _u32()
    _call("forthwn_apply", _labels(string), _bytes(table), lattice, origins, (_u32 * _STATES)(), length)
    return _traced(lattice, origins, length)


def trim(table) -> Traced:
    """Keeps the states and arcs on accepting paths, in their order, renumbered; the start alone where nothing accepts. Refusals 1 to 8."""
    out, origins, length = (_u8 * _TABLE)(), (_u16 * _LATTICE_ORIGINS)(), _u32()
    _call("forthwn_trim", _bytes(table), out, origins, length)
    return _traced(out, origins, length)


def _arcs(table: bytes) -> int:
    """The number of arcs at the head of an accepted table."""
    return int.from_bytes(table[6:8], "little")


def _traced(out, origins, length) -> Traced:
    made = bytes(out[: length.value])
    return Traced(made, origins[: _arcs(made)])


def count(table) -> int:
    """The number of accepting paths, MANY (99) standing for 99 or more. Refusals 1 to 8, 14."""
    number = _u32()
    _call("forthwn_count", _bytes(table), number)
    return number.value


def _path(name, *arguments) -> Path:
    arcs, labels, told = (_u16 * _PATH)(), (_u16 * _PATH)(), _Told()
    _call(name, *arguments, arcs, labels, told)
    return Path(told.cost, arcs[: told.arcs], labels[: told.labels])


def nth(table, k: int) -> Path:
    """The k-th accepting path in path order, from 0. Refusals 1 to 8, 14, 15."""
    return _path("forthwn_nth", _bytes(table), _number(k))


def shortest(table) -> Path:
    """The accepting path of least cost, then of fewest labels (an empty output is none), then of fewest arcs, then first in path order.
    Refusals 1 to 8, 16, 19.

    >>> rebate = Table(2, 0, [Final(1, 0)], [Arc(0, 1, 2, 1, 5), Arc(0, 1, 3, 1, -7)])
    >>> shortest(write(rebate))
    Path(cost=-7, arcs=[1], labels=[3])
    >>> shortest(write(Table(1, 0, [Final(0, 0)], [Arc(0, 1, 2, 0, -1)])))
    Traceback (most recent call last):
        ...
    forthwn.Refusal: refused 19: a cycle below 0 on a path to a final state
    """
    return _path("forthwn_shortest", _bytes(table))


def distance(table) -> List[Optional[int]]:
    """The least cost still to come from each state (the shortest distance to the final states), over all paths that lead from it to a
    final state; None where no path does. States that the start does not reach have theirs too. Refusals 1 to 8, 19.

    >>> distance(write(Table(4, 0, [Final(1, 4)], [Arc(0, 1, 2, 1, 5), Arc(0, 1, 2, 3, 0), Arc(2, 1, 2, 0, -7)])))
    [9, 4, 2, None]
    >>> distance(write(Table(3, 0, [Final(1, 4)], [Arc(2, 1, 2, 1, 5), Arc(2, 1, 2, 2, -1)])))
    Traceback (most recent call last):
        ...
    forthwn.Refusal: refused 19: a cycle below 0 on a path to a final state
    """
    table, cells = _bytes(table), (_COST * _CELLS)()
    _call("forthwn_distance", table, cells)
    return [None if cost == _NO_COST else cost for cost in cells[: int.from_bytes(table[4:6], "little")]]


def paths(table) -> Iterator[Path]:
    """The accepting paths in path order; of 99 or more, the first 99. Refusals 1 to 8, 14, at the call."""
    table = _bytes(table)
    return (nth(table, k) for k in range(count(table)))


def readings(left, right, string: Sequence[int]) -> int:
    """Composes, applies a string and counts, in one call; MANY (99) stands for 99 or more.

    Refusals: those of compose, then 9, then 11 and 12 of the lattice, then 14.
    """
    number = _u32()
    _call("forthwn_readings", _bytes(left), _bytes(right), _labels(string), number)
    return number.value


def cascade_readings(left, right, string: Sequence[int]) -> int:
    """The number of readings by the cascade, in one call; MANY (99) stands for 99 or more. Refusals: those of cascade, then 14."""
    number = _u32()
    _call("forthwn_cascade_readings", _bytes(left), _bytes(right), _labels(string), number)
    return number.value


def listing(left, right, code) -> Listing:
    """The readings as text, for a code of two bytes for each label, the lower one first; a refusal of the tables or the code is a text too.

    >>> listing(b"", b"", b"")
    Listing(text='refused 2\\n', said=Refusal(2))
    """
    return _listed("forthwn_list", left, right, code)


def cascade_listing(left, right, code) -> Listing:
    """The readings by the cascade as text, in the form of listing.

    >>> cascade_listing(b"", b"", b"").text
    'refused 2\\n'
    """
    return _listed("forthwn_cascade_list", left, right, code)


def _listed(name, left, right, code) -> Listing:
    out, length, said = (_u8 * _TEXT)(), _u32(), _u32()
    _call(name, _bytes(left), _bytes(right), _bytes(code), out, length, said)
    return Listing(bytes(out[: length.value]).decode("ascii"), Refusal(said.value) if said.value else None)
