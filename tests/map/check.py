#!/usr/bin/env python3
"""Whether what docs/MAP.md names is there: definitions, laws, proof files, functions, must-fail edits, cases and files, and sections of docs/reference.md.

  tests/map/check.py      prints each name that is not, with its line; status 1 where there is one

A name `Module.name`, `file/function` or `function` stands behind the crate that was named last in its cell, as the map's own head says. Only tables whose
first column is § are looked at: there each row has a section, `-` or `new`, and each heading above one names its sections. A § of any document must be
there, and the refusals of the reference must be those of bindings/refusals.txt.
"""
import re
import sys
from pathlib import Path

ROOT = Path(__file__).resolve().parents[2]
CRATES = sorted(p.name for p in (ROOT / "crates").iterdir() if p.is_dir())
# Folders of the repository: a name that begins with one is a file.
FOLDERS = ("bench", "bindings", "crates", "docs", "examples", "tests", "tools")
WORD = re.compile(r"`([^`]+)`|([A-Za-z_]+)")


def text_of(crate, folder, suffix):
    return "\n".join(p.read_text() for p in sorted((ROOT / "crates" / crate / folder).rglob("*" + suffix)))


SOURCES = {c: text_of(c, "src", ".rt") for c in CRATES}
EDITS = {p.name for p in (ROOT / "crates").glob("*/must-fail/*.edit")}
REFERENCE = (ROOT / "docs" / "reference.md").read_text()
SECTIONS = set(re.findall(r"(?m)^#{2,4} (\d+(?:\.\d+)*) ", REFERENCE))
CASES = "\n".join(p.read_text() for p in sorted((ROOT / "tests" / "limits").glob("*.py")))


def module_files(crate, module):
    return [p for folder in ("specs", "proofs") for p in (ROOT / "crates" / crate / folder).rglob(module + ".antt")]


def declares(text, name):
    """A declaration `name :`, a field or constructor of it, or a record or type of that name."""
    quoted = re.escape(name)
    return re.search(rf"(?m)^\s*(?:(?:unfoldable|abbrev|pub|record|data|infix\S*)\s+)*{quoted}(?=[\s:({{]|$)", text) is not None


def has_ensures(text, function):
    """Whether a function stands in a source with an `ensures` in its head, that is before the line that opens its body."""
    lines = iter(text.splitlines())
    for line in lines:
        if re.search(rf"\bfn {function}\b", line):
            while not line.rstrip().endswith("{"):
                line = next(lines, "{")
                if re.match(r"\s*ensures\b", line):
                    return True
    return False


def fault(crate, name):
    """What is wrong with a name in backticks, or nothing."""
    if name.endswith(".edit"):
        return None if name in EDITS else "no such must-fail edit"
    if "/" in name and ("." in name.rsplit("/", 1)[-1] or name.endswith("/") or name.split("/", 1)[0] in FOLDERS):
        found = (ROOT / name).exists() or (crate and (ROOT / "crates" / crate / name).exists())
        return None if found else "no such file"
    if re.fullmatch(r"[a-z_]+_rows?", name):
        return None if re.search(rf"(?m)^def {name}\b", CASES) else "no such cases"
    if name.startswith("forthwn_") and name != "forthwn_..":
        return None if any(f"fn {name}(" in text for text in SOURCES.values()) else "no such export"
    if "::" in name:
        owner, function = name.split("::", 1)
        if owner in CRATES:
            return None if re.search(rf"\b(?:fn|struct|enum|const|as|use [a-z_]+::)\s*{function}\b", SOURCES[owner]) else "no such function"
        return None if re.search(rf"impl {owner}\b", "".join(SOURCES.values())) else "no such struct"
    if re.fullmatch(r"[A-Z][A-Za-z]*\.[^\s.`]+", name):
        module, entry = name.split(".", 1)
        if not crate:
            return "no crate stands before it"
        files = module_files(crate, module)
        if not files:
            return f"{crate} has no module {module}"
        return None if any(declares(p.read_text(), entry) for p in files) else f"{module} of {crate} has no {entry}"
    if re.fullmatch(r"[a-z_]+/[a-z_0-9]+", name):
        if not crate:
            return "no crate stands before it"
        files = [ROOT / "crates" / crate / "proofs" / name / file for file in ("Proof.antt", "Answers.antt", "Invariants.antt")]
        if any(file.is_file() for file in files):
            return None
        # A function without a folder is one whose proof the check finds alone. One with no `ensures` has nothing to prove but that it is safe.
        file, function = name.rsplit("/", 1)
        source = ROOT / "crates" / crate / "src" / (file + ".rt")
        return None if source.is_file() and has_ensures(source.read_text(), function) else f"{crate} has no proof of {name}"
    return None


def rows(text):
    """The rows of the tables whose first column is §: line number, the heading above, the row."""
    heading, inside = "", False
    for number, line in enumerate(text.splitlines(), 1):
        if line.startswith("#"):
            heading = line
        if not line.startswith("|"):
            inside = False
        elif line.startswith("| § |"):
            inside = True
        elif inside and not line.startswith("|---"):
            yield number, heading, line


def name_faults(line):
    """Each name in backticks of a row with what is wrong with it, or nothing."""
    for cell in line.split("|"):
        crate = None
        for found in WORD.finditer(cell):
            name, word = found.groups()
            if word is not None:
                crate = word if word in CRATES else crate
                continue
            yield name, fault(crate, name)


def key_fault(heading, line):
    """What is wrong with the sections of a row and of its heading, or nothing."""
    key = line.split("|")[1].strip()
    if key not in ("-", "new") and not re.fullmatch(r"§[\d.]+(, §[\d.]+)*", key):
        return "the row has no section"
    if heading.startswith("## ") and key != "-" and "§" not in heading:
        return "the heading has no section"
    return None


def section_faults():
    """Each § of a document that the reference does not have."""
    for path in [ROOT / "README.md", *sorted((ROOT / "docs").glob("*.md"))]:
        for number, line in enumerate(path.read_text().splitlines(), 1):
            for key in re.findall(r"§(\d+(?:\.\d+)*)", line):
                if key not in SECTIONS:
                    yield f"{path.relative_to(ROOT)}:{number}: §{key}: no such section of docs/reference.md"


def refusal_faults():
    """Each refusal of bindings/refusals.txt whose number and name are not a row of the reference."""
    names = ROOT / "bindings" / "refusals.txt"
    for line in names.read_text().splitlines() if names.exists() else []:
        number, name, _ = line.split("\t")
        if f"| {number} | `{name}` |" not in REFERENCE:
            yield f"docs/reference.md: refusal {number}, {name}, is not in its table"


def main():
    faults, checked = [], 0
    for number, heading, line in rows((ROOT / "docs" / "MAP.md").read_text()):
        wrong = key_fault(heading, line)
        faults += [f"docs/MAP.md:{number}: {wrong}"] if wrong else []
        for name, wrong in name_faults(line):
            checked += 1
            faults += [f"docs/MAP.md:{number}: `{name}`: {wrong}"] if wrong else []
    faults += [*section_faults(), *refusal_faults()]
    print("\n".join([*faults, f"docs/MAP.md: {checked} names, {len(faults)} faults"]))
    return 1 if faults else 0


if __name__ == "__main__":
    sys.exit(main())
