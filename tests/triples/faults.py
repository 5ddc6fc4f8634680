#!/usr/bin/env python3
"""Plants faults, one at a time, and runs the driver of tests/triples, or of tests/cascade: each must be found.

    python3 -B tests/triples/faults.py [--cases N] [--only TEXT]

The model of tests/second stands in the place of the library (shim.rs), so nothing needs to be proved. A fault is planted in that model, or in the driver:
then the driver does, or expects, what Point 14 rules out, or what is claimed of the cascade. Exit code 1 if a fault is not found or cannot be planted, or if
a copy without a fault fails.
"""
import argparse
import os
import shutil
import subprocess
import sys
import tempfile
import time
from pathlib import Path

TESTS = Path(__file__).resolve().parents[1]

# Name, file, anchor, part of a line, replacement: the first such part behind the anchor is replaced.
FAULTS = [
    ("the whole buffer handed on", "triples/main.rs", "fn written",
     "table[..length as usize].to_vec()", "{ let _ = length; table }"),
    ("the middle table's cost left out", "triples/brute.rs", "", "x.cost + y.cost + z.cost", "x.cost + z.cost"),
    ("brackets' inner origins mixed up", "triples/main.rs", "fn two_and_one", "[x, y, origin(&ab_c.origins, i, 1)]", "[y, x, origin(&ab_c.origins, i, 1)]"),
    ("both sides rest freely", "second/model.rs", "pub fn join", "if mark == 0 {", "if mark <= 1 {"),
    ("left steps barred after a step of both", "second/model.rs", "pub fn join",
     "let to = (a.target, b.target, 0);", "let to = (a.target, b.target, mark);"),
    ("filter state 1 not final", "second/model.rs", "pub fn join",
     "for (i, &(p, q, _mark)) in triples.iter().enumerate() {", "for (i, &(p, q, _mark)) in triples.iter().enumerate().filter(|x| x.1 .2 == 0) {"),
    ("origins swapped", "second/model.rs", "pub fn compose", "|o| [o.0, o.1]", "|o| [o.1, o.0]"),
    ("the right side's final weight left out", "second/model.rs", "pub fn join", "finals.push((i, x + y));", "finals.push((i, x + 0 * y));"),
    ("origins of a lattice before trimming", "second/model.rs", "pub fn apply", "kept.iter().map(|&i| from[i]).collect()", "kept.clone()"),
    ("any left in a composed arc", "second/model.rs", "pub fn join", "let output = passed(b.output, a.output);", "let output = b.output;"),
    ("any arcs do not fit", "second/model.rs", "fn fits", "(a.input == symbol || a.input == ANY && !named(t, a.source, symbol))", "a.input == symbol"),
    ("a hidden any arc still fits", "second/model.rs", "fn fits", " && !named(t, a.source, symbol)", ""),
    ("count capped at 98", "second/model.rs", "pub fn count", "MANY", "(MANY - 1)"),
]

# The same for the driver of tests/cascade.
CASCADES = [
    ("cascade: right origins read as left ones", "second/model.rs", "pub fn cascade(", "|o| [o.0, o.1]", "|o| [o.1, o.1]"),
    ("cascade: left origins are arcs of the lattice", "second/model.rs", "pub fn cascaded", "from[kept[l as usize]] as u16", "l"),
    ("cascade: left origins before trimming", "second/model.rs", "pub fn cascaded", "from[kept[l as usize]] as u16", "from[l as usize] as u16"),
    ("cascade: a left side that stood still has arc 0", "second/model.rs", "pub fn cascaded", "if l == STILL { STILL }", "if l == STILL { 0 }"),
    ("cascade: the string's end not asked for", "second/model.rs", "pub fn lattice", "place == code.len()", "place <= code.len()"),
    ("cascade: a hidden any arc still fits", "second/model.rs", "fn fits", " && !named(t, a.source, symbol)", ""),
    ("cascade: any symbol not passed on", "second/model.rs", "pub fn lattice", "passed(a.output, code[place])", "a.output"),
    ("cascade: the listing of the first chain", "second/model.rs", "pub fn cascade_list", "cascade_listed(left, right, code)", "listed(left, right, code)"),
]


def rustc(work, *words):
    made = subprocess.run(["rustc", "-O", "--edition", "2021", "--cap-lints", "allow", *words], cwd=work, capture_output=True, text=True)
    if made.returncode != 0:
        raise RuntimeError(made.stderr.strip())


def planted(work, fault):
    """The two folders of tests with the fault in them, or an error."""
    for folder in ("second", "triples", "cascade"):
        shutil.copytree(TESTS / folder, work / folder, dirs_exist_ok=True)
    name, file, after, old, new = fault
    if not file:
        return
    text = (work / file).read_text()
    at = text.find(old, max(text.find(after), 0))
    if at < 0 or after not in text:
        raise RuntimeError(f"text not in {file}")
    (work / file).write_text(text[:at] + new + text[at + len(old):])


def outcome(work, driver, fault, cases):
    try:
        planted(work, fault)
        rustc(work, "--crate-type", "cdylib", "--crate-name", "forthwn", "second/shim.rs")
        rustc(work, "--cfg", "have_all", f"{driver}/main.rs", "-L", f"native={work}", "-l", "dylib=forthwn", "-o", "driver")
    except RuntimeError as error:
        return f"NOT PLANTED: {error}"
    run = subprocess.run(["./driver", "--cases", str(cases)], cwd=work, env={**os.environ, "LD_LIBRARY_PATH": str(work)}, capture_output=True, text=True)
    if run.returncode == 0:
        return "agrees"
    failed = [x for x in run.stdout.splitlines() if "FAILED" in x]
    return f"found: {failed[0][:150]}" if run.returncode == 1 and failed else f"NOT FOUND: exit code {run.returncode}, {run.stderr.strip()[:200]}"


def main():
    parser = argparse.ArgumentParser()
    parser.add_argument("--cases", type=int, default=2000)
    parser.add_argument("--only", default="", help="plant the faults whose name has this text")
    options = parser.parse_args()
    none = ("none", "", "", "", "")
    faults = [(driver, f) for driver, planted in (("triples", FAULTS), ("cascade", CASCADES)) for f in [none] + planted if options.only in f[0] or f is none]
    work, missed, began = Path(tempfile.mkdtemp(prefix="triples-")), [], time.time()
    try:
        # Without a fault all must agree, or a found fault says nothing.
        for driver, fault in faults:
            result = outcome(work, driver, fault, options.cases)
            if not (result == "agrees" if fault is none else result.startswith("found")):
                missed.append(fault[0])
            print(f"{driver}, {fault[0]}: {result}", flush=True)
    finally:
        shutil.rmtree(work)
    print(f"{len(faults) - 2} faults planted, {len(missed)} not as wanted, {time.time() - began:.0f} seconds")
    return 1 if missed else 0


if __name__ == "__main__":
    sys.exit(main())
