#!/usr/bin/env python3
"""Whether composing and applying run without division and remainder (paper 02, Point 4).

  tests/division/check.py     prints each `/` and `%` in the code that they can run; status 1 where there is one

The code that they can run is every function of the crates that `compose` and `lattice` stand on, by crates.txt, and of these two: more than what is called, so
that no call can be missed. Comments, texts and contracts are passed over, since they are not executed. Functions of the kit are not looked into here: those that
are called must be in METHODS, which were read for it once and divide nothing. What the compiler makes of the code is not looked at either.
"""
import re
import sys
from pathlib import Path

ROOT = Path(__file__).resolve().parents[2]
CALLS = {"compose": "pub fn compose(", "lattice": "pub fn apply("}
KIT = set()
METHODS = {
    *("len", "get", "iter", "all", "filter", "count", "rev", "copied", "copy_from_slice"),
    *("is_some", "unwrap", "unwrap_or"),
    *("from", "from_le_bytes", "max", "min", "wrapping_add", "wrapping_sub", "is_power_of_two", "cast_signed", "cast_unsigned"),
}


def below(crates):
    """These crates and all that they stand on."""
    lines = [line.split(":") for line in (ROOT / "crates.txt").read_text().splitlines() if ":" in line and not line.startswith("#")]
    needs = {name.split()[0]: rest.split() for name, rest in lines}
    reached, left = set(), set(crates)
    while left:
        crate = left.pop()
        reached.add(crate)
        left |= set(needs[crate]) - reached
    return sorted(reached)


def executed(text):
    """The lines of a source with what is not executed left out."""
    text = re.sub(r"//.*|(?m:^ghost use .*)|b?'(?:\\.|[^'\\])'|b?\"(?:\\.|[^\"\\])*\"", "", text)
    left, at = [], 0
    for found in re.finditer(r"\b(?:requires|ensures)(?: \w+)? \{", text):
        end, deep = found.end(), 1
        while deep:
            deep += {"{": 1, "}": -1}.get(text[end], 0)
            end += 1
        left += [text[at : found.start()], "\n" * text.count("\n", found.start(), end)]
        at = end
    return "".join([*left, text[at:]]).splitlines()


def main():
    crates = below(CALLS)
    faults, functions = [], 0
    for crate in crates:
        paths = sorted((ROOT / "crates" / crate / "src").glob("*.rt"))
        if crate in CALLS and not any(CALLS[crate] in path.read_text() for path in paths):
            faults.append(f"crates/{crate}: no `{CALLS[crate]}`")
        for path in paths:
            text = path.read_text()
            functions += len(re.findall(r"\bfn \w+[(<]", text))
            for number, (line, whole) in enumerate(zip(executed(text), text.splitlines()), 1):
                where = f"{path.relative_to(ROOT)}:{number}"
                if re.search(r"[/%]", line):
                    faults.append(f"{where}: a division or remainder: {whole.strip()}")
                for name in re.findall(r"\bstd(?:::\w+)+", line):
                    faults += [] if name in KIT else [f"{where}: a function of the kit that is not in KIT: {name}"]
                for name in re.findall(r"\b(?:[ui]\d+|[ui]size)::([a-z]\w*)\(", line):
                    faults += [] if name in METHODS else [f"{where}: a method that is not in METHODS: {name}"]
                for name in re.findall(r"(?<!\.)\.\s*([a-z]\w*)(?:::<[^>]*>)?\(", line):
                    faults += [] if name in METHODS else [f"{where}: a method that is not in METHODS: {name}"]
    print("\n".join([*faults, f"composing and applying: {functions} functions of {', '.join(crates)}, {len(faults)} faults"]))
    return 1 if faults else 0


if __name__ == "__main__":
    sys.exit(main())
