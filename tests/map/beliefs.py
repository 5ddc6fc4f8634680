#!/usr/bin/env python3
"""Whether the README's table "What a caller must believe" has each definition of crates/*/specs in the column where it belongs, and how many lines that are.

  tests/map/beliefs.py           prints each definition that stands in another column; status 1 where there is one
  tests/map/beliefs.py --list    prints the columns as they are computed

"the contracts cite": what the contracts of crates/forthwn/src/lib.rt name, what those definitions name, and so on. "claims": the same of the files of CLAIMS,
less the first column. "only inner": every other definition. In a cell `Module` is each definition of that file but those named in another cell of the row,
`Module.name` is one of them, and `struct Name` is a struct or an enum of the crate's code; those of the third column are not listed. The last row has the
lines of each column: the definitions with their comments, without `use` lines and blank ones.

A word counts as naming a definition where that name is known, even if it is a variable there: so the first two columns have too much rather than too little.
"""
import re
import sys
from pathlib import Path

ROOT = Path(__file__).resolve().parents[2]
CRATES = {path.name for path in (ROOT / "crates").iterdir() if path.is_dir()}
COLUMNS = ("the contracts cite", "claims", "only inner")
# The files that say what is claimed of the calls, by crate; or one definition of a file.
CLAIMS = {
    "codec": ["RoundTrip", "Unsigned"],
    "compose": ["Claim", "Composition"],
    "lattice": ["Lattice", "Application"],
    "cycles": ["Cycles.SomeNegativeCycle"],
    "distance": ["Claim"],
    "shortest": ["Claim", "Agree"],
    "claim": ["Claim", "Kind", "Listed", "Agree"],
    "associate": ["Associate"],
    "cascade": ["Cascade", "Three"],
    "printed": ["Printed", "PrintedText"],
    "cascade_listing": ["PrintedCascade"],
    "starred": ["Cases", "Answer", "Promise"],
    "worked": ["Rows"],
}

USE = re.compile(r"(?:ghost |unfoldable |pub )*use (\S+?)(?:\.\{(.*)\}| as (\S+?));?$")
OURS = re.compile(r"Rattle\.(\w+)\.specs\.(.+)")
BEGIN = re.compile(r"(?:(?:unfoldable|abbrev|pub|record|data) )+([^\s(){}:]+)|([^\s(){}:]+) :")
WORD = re.compile(r"[^\s(){};,]+")


def used(line):
    """What a `use` line of our own definitions brings: the name here, and the crate, module and name that it stands for."""
    path, names, alias = USE.match(line).groups()
    ours = OURS.match(path)
    if not ours or ours[1] not in CRATES:
        return {}
    crate, module = ours.groups()
    if alias:
        return {alias: (crate, module, "")}
    pairs = [name.strip().split(" as ") for name in names.split(",")]
    return {pair[-1]: (crate, module, pair[0]) for pair in pairs}


class Definitions:
    def __init__(self):
        self.lines = {}  # of each definition, by crate, module and name
        self.known = {}  # the names known in each module, by crate and module
        for path in sorted((ROOT / "crates").glob("*/specs/*.antt")):
            if path.stem != "Lib":
                self.read(path.parts[-3], path.stem, path.read_text().splitlines())
        self.structs = {}
        for path in sorted((ROOT / "crates").glob("*/src/*.rt")):
            for text, name in re.findall(r"(?m)((?:^(?://|#\[).*\n)*^(?:pub )?(?:struct|enum) (\w+) \{(?:.*\n)+?\})", path.read_text()):
                self.structs[path.parts[-3], "struct", name] = text.splitlines()

    def read(self, crate, module, lines):
        known = self.known[crate, module] = {}
        name, comment = None, []
        for line in lines:
            begins = BEGIN.match(line)
            if USE.match(line):
                known.update(used(line))
                comment = []
            elif not line.strip():
                comment = []
            elif line.startswith(("--", "infix")):
                comment.append(line)
            else:
                if begins:
                    name = (crate, module, begins[1] or begins[2])
                    self.lines[name] = []
                    known.update({part: name for part in [name[2], *name[2].split("◌")] if part})
                elif line.startswith("  ") and re.match(r"  \S+ :", line):
                    known.setdefault(line.split()[0], name)  # a constructor
                self.lines[name] += [*comment, line]
                comment = []

    def found(self, name):
        """The definition that a name stands for, by way of what its module itself uses."""
        crate, module, word = name
        if module.startswith("declared."):
            parts = module.replace(".TheVariants", "").split(".")
            return crate, "struct", parts[-1]
        if "." in module:  # constructors of a type
            return (crate, *module.split("."))
        if name in self.lines:
            return name
        if word not in self.known.get((crate, module), {}):
            sys.exit(f"crates/{crate}/specs: {module} has no {word}")
        return self.found(self.known[crate, module][word])

    def cited(self, text, known):
        """What the words of a text stand for. A word behind a dot is a field; one with a dot in it is of the module before the dot."""
        for word in WORD.findall(re.sub(r"(?m)(^|\s)--.*", "", text)):
            first, _, rest = word.rstrip(".").partition(".")
            if first in known:
                name = known[first]
                yield self.found(name if name[2] else (*name[:2], rest))

    def closure(self, names):
        reached, left = set(), set(names)
        while left:
            name = left.pop()
            reached.add(name)
            if name in self.lines:
                left |= set(self.cited("\n".join(self.lines[name]), self.known[name[:2]])) - reached
            else:
                words = " ".join(line for line in self.structs[name] if not line.startswith("//"))
                left |= {key for key in self.structs if key[0] == name[0] and re.search(rf"\b{key[2]}\b", words)} - reached
        return reached

    def contracts(self):
        text = (ROOT / "crates" / "forthwn" / "src" / "lib.rt").read_text()
        known = {}
        for line in text.splitlines():
            if line.startswith("ghost use"):
                known.update(used(line))
        promises = re.findall(r"(?s)\n    ensures \{(.*?) \}\n\{", text)
        if len(promises) != len(re.findall(r"(?m)^(?:pub )?(?:extern \"C\" )?fn ", text)):
            sys.exit("crates/forthwn/src/lib.rt: a function without a contract, or a contract of another form")
        return self.closure(name for promise in promises for name in self.cited(promise, known))

    def claims(self):
        roots = {(crate, *root.split(".")) for crate, files in CLAIMS.items() for root in files}
        missing = {root for root in roots if not any(name[: len(root)] == root for name in self.lines)}
        if missing:
            sys.exit(f"no such claim: {missing}")
        return self.closure(name for name in self.lines if name[:2] in roots or name in roots)


def columns(definitions):
    """The column of each definition, and of each struct that stands in one of the first two."""
    contracts, claims = definitions.contracts(), definitions.claims()
    column = {name: 0 if name in contracts else 1 if name in claims else 2 for name in definitions.lines}
    column.update({name: 0 if name in contracts else 1 for name in contracts | claims if name not in column})
    return column


def table():
    """The rows of the README's table: a crate's name, or `lines`, and the cells."""
    text = (ROOT / "README.md").read_text().split("### What a caller must believe", 1)[1]
    cells = [[cell.strip() for cell in line.split("|")[1:-1]] for line in text.splitlines() if line.startswith("|")]
    return {row[0].strip("`"): row[1:] for row in cells if len(row) == 4 and row[0] not in ("crate", "---")}


def faults(definitions, column):
    rows = table()
    lines = [0, 0, 0]
    said = {}
    for crate, row in rows.items():
        for place, cell in enumerate(row):
            for name in re.findall(r"`([^`]+)`", cell):
                key = (crate, "struct", name[7:]) if name.startswith("struct ") else (crate, *name.split("."))
                known = key in column or any(other[:2] == key for other in column)
                if not known:
                    yield f"{crate}: `{name}` is no definition, nor a struct that a contract or a claim names"
                if key in said:
                    yield f"{crate}: `{name}` stands twice"
                said[key] = place
    for name, place in sorted(column.items()):
        lines[place] += len((definitions.lines.get(name) or definitions.structs[name]))
        here = said.get(name, said.get(name[:2]))
        if here != place:
            stands = "in no column" if here is None else f'under "{COLUMNS[here]}"'
            yield f'{name[0]}: `{".".join(name[1:])}` stands {stands} and belongs under "{COLUMNS[place]}"'.replace("struct.", "struct ")
    wanted = [f"{number:,}" for number in lines]
    if rows.get("lines") != wanted:
        yield f"the last row is to say | lines | {' | '.join(wanted)} |, not {rows.get('lines')}"


def main():
    definitions = Definitions()
    column = columns(definitions)
    if sys.argv[1:] == ["--list"]:
        for name, place in sorted(column.items()):
            print(f"{COLUMNS[place]}: {name[0]} {'.'.join(name[1:])}")
        return 0
    wrong = [f"README.md: {fault}" for fault in faults(definitions, column)]
    print("\n".join([*wrong, f"README.md: {len(column)} definitions, {len(wrong)} faults in what a caller must believe"]))
    return 1 if wrong else 0


if __name__ == "__main__":
    sys.exit(main())
