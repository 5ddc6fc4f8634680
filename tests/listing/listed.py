"""The text that the program `list` prints, by the plain Python of tests/limits."""
import struct
import sys
from pathlib import Path

ROOT = Path(__file__).resolve().parents[2]
sys.path.insert(0, str(ROOT / "tests/limits"))

from lattice_model import applied, string_wrong, trimmed
from model import any_condition, built_conditions, byte_conditions, composed, encode
from path_model import cost, endless, paths

MOST_READ = 65536


def labels(*codes):
    return struct.pack(f"<{len(codes)}H", *codes)


def refusal(left, right, code):
    """The composition's refusal, then the string's, then that of applying it; 0 where none holds."""
    for held in (byte_conditions(left), any_condition(left), byte_conditions(right)):
        if held:
            return min(held)
    joined = composed(left, right)[0]
    if built_conditions(joined):
        return min(built_conditions(joined))
    string = struct.unpack(f"<{len(code) // 2}H", code[: len(code) // 2 * 2])
    if len(code) % 2 or string_wrong(string):
        return 9
    return min(built_conditions(applied(string, encode(joined))[0]), default=0)


def listing(left, right, code):
    """The text for the bytes of three files."""
    left, right, code = left[:MOST_READ], right[:MOST_READ], code[:MOST_READ]
    number = refusal(left, right, code)
    if number:
        return f"refused {number}\n"
    string = struct.unpack(f"<{len(code) // 2}H", code)
    return text(trimmed(applied(string, encode(composed(left, right)[0]))[0])[0])


def text(t):
    """The count of a trimmed table and its paths, where they are fewer than 99."""
    if endless(t):
        return "readings endless\n"
    found = paths(t, 99)
    if len(found) == 99:
        return "readings 99+\n"
    lines = [f"readings {len(found)}"]
    for k, path in enumerate(found):
        outputs = [t.arcs[i].output for i in path if t.arcs[i].output]
        lines.append(" ".join(map(str, [k, cost(t, path), *outputs])))
    return "\n".join(lines) + "\n"


def cascade_listing(left, right, code):
    """The text where the code is applied to the left table first: both tables are tested, then the code, then the lattice, then its composition."""
    left, right, code = left[:MOST_READ], right[:MOST_READ], code[:MOST_READ]
    for held in (byte_conditions(left), byte_conditions(right)):
        if held:
            return f"refused {min(held)}\n"
    string = struct.unpack(f"<{len(code) // 2}H", code[: len(code) // 2 * 2])
    if len(code) % 2 or string_wrong(string):
        return "refused 9\n"
    lattice = applied(string, left)[0]
    if built_conditions(lattice):
        return f"refused {min(built_conditions(lattice))}\n"
    joined = composed(encode(trimmed(lattice)[0]), right)[0]
    if built_conditions(joined):
        return f"refused {min(built_conditions(joined))}\n"
    return text(trimmed(joined)[0])
