#!/usr/bin/env python3
"""Plants faults in a copy of the model, one at a time, and runs the driver
with the faulty copy on one side and the static library on the other.

    python3 tests/second/faults.py [--all] [--cases N] [--only TEXT]

The faulty copy is a shared library with the calls of the real one under
other names (shim.rs), so the driver is built only once, and what it hands on
from call to call is made by the clean model. Exit code 1 if a fault is not
found or cannot be planted, or if the copy without a fault differs.
FORTHWN_LIB_DIR=FOLDER takes libforthwn.a from there, and builds nothing.
"""
import argparse
import os
import shutil
import subprocess
import sys
import tempfile
import time

HERE = os.path.dirname(os.path.abspath(__file__))
ROOT = os.path.dirname(os.path.dirname(HERE))

# Name, anchor, part of a line, replacement: the first such part behind the
# anchor is replaced.
FAULTS = [
    ("count capped at 98", "", "pub const MANY: usize = 99;", "pub const MANY: usize = 98;"),
    ("step of both keeps the mark", "pub fn join",
     "let to = (a.target, b.target, 0);", "let to = (a.target, b.target, mark);"),
    ("right steps first", "pub fn join",
     "for (to, input, output, weight, origin) in steps {",
     "steps.sort_by_key(|s: &((usize, usize, u8), u16, u16, i64, (u16, u16))| s.4 .0 != STILL); "
     "for (to, input, output, weight, origin) in steps {"),
    ("trimming keeps unreachable states", "pub fn live",
     "(0..t.states).map(|s| reached[s] && accepts[s]).collect()",
     "(0..t.states).map(|s| accepts[s]).collect()"),
    ("start not renumbered", "pub fn trimmed", "start: number(t.start),", "start: t.start,"),
    ("refusal 7 before 6", "fn test_body",
     "for refusal in [5, 6, 7, 8] {", "for refusal in [5, 7, 6, 8] {"),
    ("zeros not behind", "fn fill",
     "let behind = items.len();", "let behind = buffer.len() - if items.is_empty() { buffer.len() } else { 0 };"),
    ("cost without final weight", "pub fn path_cost",
     "arcs + t.final_weight(path_end(t, path)).unwrap()", "arcs"),
    ("ties to more arcs", "fn least_path", "layers.iter().position(", "layers.iter().take(t.states).rposition("),
    ("9 after 10", "pub fn apply",
     "if code.len() > MAX_CODE ||",
     "if out.len() >= TABLE_BYTES && origins.len() >= LATTICE_ORIGINS && pairs.len() >= WORK_STATES && code.len() > MAX_CODE ||"),
    ("k = 98 refused with count 99", "pub fn nth",
     "if k as usize >= paths.len() {", "if k as usize >= paths.len().min(98) {"),
    ("origins swapped", "pub fn compose", "|o| [o.0, o.1]", "|o| [o.1, o.0]"),
    ("triples with mark 1 not final", "pub fn join",
     "for (i, &(p, q, _mark)) in triples.iter().enumerate() {",
     "for (i, &(p, q, _mark)) in triples.iter().enumerate().filter(|x| x.1 .2 == 0) {"),
    ("both sides rest freely", "pub fn join", "if mark == 0 {", "if mark <= 1 {"),
    ("endless for a ring on no accepting path", "pub fn endless",
     "let mut left = live(t);", "let mut left = vec![true; t.states];"),
    ("buffers kept on 11 to 13", "pub fn compose",
     "Err(r) => {", "Err(r) => { if r > 0 { return (r, 0); }"),
    ("12 before 11", "pub fn join",
     "if triples.len() > MAX_STATES {", "if arcs.len() > MAX_ARCS { return Err(12); } if triples.len() > MAX_STATES {"),
    ("pairs of the lattice not cleared", "pub fn apply", "clear(pairs);", ""),
    ("right table tested first", "pub fn compose",
     "let a = match parse(left) {", "if let Err(r) = parse(right) { return (r, 0); } let a = match parse(left) {"),
    ("extensions before their path", "pub fn nth",
     "let paths = first_paths(&t, MANY);",
     "let mut paths = first_paths(&t, MANY); paths.sort_by(|a, b| "
     "b.starts_with(a).cmp(&a.starts_with(b)).then(a.cmp(b)));"),
    ("listing: the lines of 99 follow", "fn text_of", "if n as usize == MANY {", "if n as usize > MANY {"),
    # Signs, and rings below zero.
    ("the sign bit read as large", "fn weight", "if bytes[at + 3] < 128 { whole } else { whole - 4_294_967_296 }", "whole"),
    ("8 on one side only", "fn test_body", "_ => beyond(a.weight),", "_ => a.weight > MAX_WEIGHT,"),
    ("13 on one side only", "pub fn join", "beyond(a.weight)", "a.weight > MAX_WEIGHT"),
    ("19 for a ring that leads nowhere", "pub fn cheapest", "if ring_below_zero(t, &layers) {",
     "let all = Table { finals: (0..t.states).map(|s| (s, 0)).collect(), ..t.clone() }; if ring_below_zero(&all, &to_come(&all)) {"),
    ("19 for a ring that is not reached", "fn to_come", "let live = live(t);", "let live = vec![true; t.states];"),
    ("19 before 16", "pub fn cheapest", "return Err(16)",
     "let all = Table { finals: (0..t.states).map(|s| (s, 0)).collect(), ..t.clone() }; "
     "return Err(if ring_below_zero(&all, &to_come(&all)) { 19 } else { 16 })"),
    ("a ring of sum zero refused", "fn ring_below_zero", "cost < least", "cost <= least"),
    # The order of ties.
    ("arcs before labels", "fn least_path", "let least = least_below(t, layers, t.start)?;",
     "let cost = least_below(t, layers, t.start)?.0; "
     "let least = layers.iter().filter_map(|layer| layer[t.start]).find(|x| x.0 == cost)?;"),
    ("empty labels counted", "fn adds", "i64::from(a.output != 0)", "1"),
    ("cost cut to 32 bits without sign", "fn tell", "path_cost(t, path),", "path_cost(t, path) as u32 as i64,"),
    # Costs to come.
    ("costs to come without final weights", "pub fn costs_back", "t.final_weight(s)", "t.final_weight(s).map(|_| 0)"),
    ("costs to come: 19 only where the start leads", "pub fn costs_back", "Err(19)",
     "if cheapest(t) == Err(19) { Err(19) } else { Ok(costs) }"),
    ("costs to come only where the start leads", "pub fn distance", "costs.get(s).copied().flatten()",
     "costs.get(s).copied().flatten().filter(|_| live(&t)[s])"),
    ("cells past the last state left at zero", "pub fn distance", "unwrap_or(NO_COST)", "unwrap_or(if s < t.states { NO_COST } else { 0 })"),
    ("none written as 1,000,000,000,000", "", "pub const NO_COST: i64 = 1_000_000_000_001;", "pub const NO_COST: i64 = 1_000_000_000_000;"),
    # Arcs for any symbol.
    ("any read by an empty output", "pub fn join", "if b.input == 0 {", "if b.input == 0 || b.input == ANY {"),
    ("any left in a lattice arc", "pub fn lattice", "(place + 1, code[place], passed(a.output, code[place]))",
     "(place + 1, a.input, passed(a.output, code[place]))"),
    ("any left in a joined arc", "pub fn join", "let output = passed(b.output, a.output);", "let output = b.output;"),
    ("18 after the right table", "pub fn compose", "if has_any(&a) {", "if parse(right).is_ok() && has_any(&a) {"),
    ("18 zeroes the buffers", "pub fn compose", "return (18, 0);", "clear(table); return (18, 0);"),
    ("a hidden any arc still fits", "fn fits", " && !named(t, a.source, symbol)", ""),
    ("an any arc hidden by an arc of another state", "fn named", ".take_while(|a| a.source == state)", ""),
    ("an any arc hidden by a later arc alone", "fn fits", "!named(t, a.source, symbol)",
     "!t.arcs.iter().skip_while(|b| *b as *const Arc != a as *const Arc).any(|b| b.source == a.source && b.input == symbol)"),
    ("an any arc hidden by an earlier arc alone", "fn fits", "!named(t, a.source, symbol)",
     "!t.arcs.iter().take_while(|b| *b as *const Arc != a as *const Arc).any(|b| b.source == a.source && b.input == symbol)"),
    ("hidden only by an arc on an accepting path", "fn named", ".any(|a| a.input == symbol)", ".any(|a| a.input == symbol && live(t)[a.target])"),
    ("hidden in joins alone", "pub fn lattice", "fits(t, a, code[place])", "(a.input == ANY || fits(t, a, code[place]))"),
    ("hidden in lattices alone", "pub fn join", "fits(right, b, a.output)", "(b.input == ANY || fits(right, b, a.output))"),
    ("an empty input hides", "fn named", "a.input == symbol", "(a.input == symbol || a.input == 0)"),
    ("any arcs hide each other", "fn named", ".any(|a| a.input == symbol)", ".filter(|a| a.input == symbol || a.input == ANY).count() > 1"),
    ("output 65,535 passes beside a symbol", "fn test_body", "a.output == ANY && a.input != ANY", "a.output == ANY && a.input == 0"),
    ("input 65,535 refused", "fn test_body", "a.output == ANY && a.input != ANY", "a.output == ANY || a.input == ANY"),
    # The cascade.
    ("cascade: right origins read as left ones", "pub fn cascade(", "|o| [o.0, o.1]", "|o| [o.1, o.1]"),
    ("cascade: left origins are arcs of the lattice", "pub fn cascaded", "from[kept[l as usize]] as u16", "l"),
    ("cascade: left origins before trimming", "pub fn cascaded", "from[kept[l as usize]] as u16", "from[l as usize] as u16"),
    ("cascade: a left side that stood still has arc 0", "pub fn cascaded", "if l == STILL { STILL }", "if l == STILL { 0 }"),
    ("cascade: the untrimmed lattice handed on", "pub fn cascaded", "let (small, kept) = trimmed(&whole);",
     "let (small, kept) = (whole.clone(), (0..whole.arcs.len()).collect::<Vec<usize>>());"),
    ("cascade: the composition trimmed", "pub fn cascaded", "let joined = join(&small, right)?;",
     "let whole = join(&small, right)?; let (table, kept_of) = trimmed(&whole.table); "
     "let joined = Joined { table, origins: kept_of.iter().map(|&i| whole.origins[i]).collect() };"),
    ("cascade: the string's end not asked for", "pub fn cascaded", "let (whole, from) = lattice(code, left)?;",
     "let (whole, from) = lattice(code, left)?; if whole.finals.is_empty() && !code.is_empty() { return cascaded(left, right, &code[..code.len() - 1]); }"),
    ("cascade: 18 given", "fn cascade_inputs", "let b = parse(right)?;", "if has_any(&a) { return Err(18); } let b = parse(right)?;"),
    ("cascade: right table tested first", "fn cascade_inputs", "let a = parse(left)?;", "parse(right)?; let a = parse(left)?;"),
    ("cascade: 9 before the right table", "fn cascade_inputs", "let b = parse(right)?;", "if code.contains(&0) { return Err(9); } let b = parse(right)?;"),
    ("cascade: 9 after 10", "pub fn cascade(", "cascade_inputs(left, right, code)",
     "cascade_inputs(left, right, if table.len() < TABLE_BYTES || origins.len() < JOIN_ORIGINS || states.len() < WORK_STATES { &[] } else { code })"),
    ("cascade: 11 of the lattice keeps the buffers", "pub fn cascade(", "        Err(r) => {\n            clear(table);",
     "        Err(r) => {\n            if lattice(code, &a).is_err() { return (r, 0); }\n            clear(table);"),
    ("cascade: 13 keeps the buffers", "pub fn cascade(", "        Err(r) => {\n            clear(table);",
     "        Err(r) => {\n            if r == 13 { return (r, 0); }\n            clear(table);"),
    ("cascade: states not cleared", "pub fn cascade(", "clear(states);", ""),
    ("cascade listing: that of the first chain", "pub fn cascade_list", "cascade_listed(left, right, code)", "listed(left, right, code)"),
    ("cascade listing: an odd byte before the tables", "fn cascade_listed", "let (a, b) =", "if code.len() % 2 != 0 { return refused(9); } let (a, b) ="),
]

# More, run with --all.
MORE = [
    ("joined states at most 1,023", "pub fn join", "if triples.len() > MAX_STATES {", "if triples.len() >= MAX_STATES {"),
    ("joined states at most 1,025", "pub fn join", "if triples.len() > MAX_STATES {", "if triples.len() > MAX_STATES + 1 {"),
    ("lattice states at most 1,023", "pub fn lattice", "if reached.len() > MAX_STATES {", "if reached.len() >= MAX_STATES {"),
    ("lattice states at most 1,025", "pub fn lattice", "if reached.len() > MAX_STATES {", "if reached.len() > MAX_STATES + 1 {"),
    ("joined arcs below 3,072", "pub fn join", "if arcs.len() > MAX_ARCS {", "if arcs.len() >= MAX_ARCS {"),
    ("lattice arcs below 3,072", "pub fn lattice", "if arcs.len() > MAX_ARCS {", "if arcs.len() >= MAX_ARCS {"),
    ("lattice arcs counted after trimming", "pub fn lattice", "if arcs.len() > MAX_ARCS {",
     "let ends = reached.iter().enumerate().filter(|x| x.1 .0 == code.len()); "
     "let finals = ends.filter_map(|(i, x)| t.final_weight(x.1).map(|w| (i, w))).collect(); "
     "if trimmed(&Table { states: reached.len(), start: 0, finals, arcs: arcs.clone() }).0.arcs.len() > MAX_ARCS {"),
    ("joined weight below 1,000,000", "pub fn join", "beyond(a.weight)", "(a.weight >= MAX_WEIGHT || beyond(a.weight))"),
    ("joined weight above -1,000,000", "pub fn join", "beyond(a.weight)", "(a.weight <= MIN_WEIGHT || beyond(a.weight))"),
    ("joined final weight not tested", "pub fn join", "beyond(x.1)", "false && beyond(x.1)"),
    ("13 of finals on one side only", "pub fn join", "beyond(x.1)", "x.1 > MAX_WEIGHT"),
    ("13 of finals at the other side only", "pub fn join", "beyond(x.1)", "x.1 < MIN_WEIGHT"),
    ("8 of finals on one side only", "fn test_body", "_ => beyond(*weight),", "_ => *weight > MAX_WEIGHT,"),
    ("weight -1,000,000 refused", "fn beyond", "weight < MIN_WEIGHT", "weight <= MIN_WEIGHT"),
    ("weight -1,000,001 passes", "fn beyond", "weight < MIN_WEIGHT", "weight < MIN_WEIGHT - 1"),
    ("the sign bit counts -2^31 and 2^31", "fn weight", "whole - 4_294_967_296", "whole - 4_294_967_295"),
    ("a sign written as size", "fn put4", "if x < 0 { x + 4_294_967_296 } else { x }", "x.abs()"),
    ("a round too few before 19", "fn to_come", "while layers.len() <= t.states {", "while layers.len() < t.states {"),
    ("19 changes the buffers", "pub fn shortest", "Err(r) => (r, (0, 0, 0)),",
     "Err(r) => { if r == 19 { clear(arcs); } (r, (0, 0, 0)) }"),
    ("19 before 10", "pub fn shortest", "if arcs.len() < PATH_ARCS",
     "if cheapest(&t) == Err(19) { return (19, (0, 0, 0)); } if arcs.len() < PATH_ARCS"),
    ("costs to come: a ring of sum zero refused", "pub fn costs_back", "sum = a.weight + rest;", "sum = a.weight + rest - i64::from(a.source == a.target);"),
    ("costs to come: a round too few before 19", "pub fn costs_back", "for _ in 0..t.states {", "for _ in 1..t.states.max(2) {"),
    ("costs to come: 19 before 10", "pub fn distance", "if cells.len() < COST_CELLS {",
     "if costs_back(&t) == Err(19) { return 19; } if cells.len() < COST_CELLS {"),
    ("costs to come: 19 changes the cells", "pub fn distance", "Err(r) => r,\n    }\n}", "Err(r) => { clear(cells); r }\n    }\n}"),
    ("costs to come: 1,025 cells wanted", "pub fn distance", "cells.len() < COST_CELLS", "cells.len() <= COST_CELLS"),
    ("costs to come: nothing written behind", "pub fn distance", "fill(cells, &", "fill(&mut cells[..COST_CELLS], &"),
    ("14 not given for a ring below zero", "pub fn count", "if endless(&t) {", "if endless(&t) && cheapest(&t) != Err(19) {"),
    ("listing: costs without their sign", "fn text_of", "told.0", "told.0.abs()"),
    ("listing: room for costs of ten", "", "\"97 -1024000000\\n\"", "\"97 1024000000\\n\""),
    ("joined final weight of the left alone", "pub fn join", "finals.push((i, x + y));", "finals.push((i, x + 0 * y));"),
    ("equal finals pass", "fn test_body", "t.finals[i - 1].0 >= *state", "t.finals[i - 1].0 > *state"),
    ("equal sources refused", "fn test_body", "t.arcs[i - 1].source > a.source", "t.arcs[i - 1].source >= a.source"),
    ("start n passes", "fn test_head", "if start >= n {", "if start > n {"),
    ("f = n refused", "fn test_head", "if f > n {", "if f >= n {"),
    ("cut head gives 2", "fn records", "return Err(1);", "return Err(2);"),
    ("kinds tested before the end", "fn records", "if rest.len() - 4 < length {", "if rest.len() - 4 < length { if two(rest, 2) > 3 { return Err(2); }"),
    ("second head passes", "fn test_kinds", "if (*kind == 1) != (i == 0) {", "if i == 0 && *kind != 1 {"),
    ("order of kinds not tested", "fn test_kinds", "if i > 0 && records[i - 1].0 > *kind {", "if false {"),
    ("final weight not tested", "fn test_body", "_ => beyond(*weight),", "_ => false,"),
    ("string of 64 refused", "pub fn apply", "code.len() > MAX_CODE", "code.len() >= MAX_CODE"),
    ("output 65,535 passes beside nothing", "fn test_body", "a.output == ANY && a.input != ANY", "a.output == ANY && a.input != ANY && a.input != 0"),
    ("18 for reached arcs alone", "pub fn has_any", "t.arcs.iter().any(|a| a.input == ANY)",
     "{ let l = live(t); t.arcs.iter().any(|a| a.input == ANY && l[a.source]) }"),
    ("any takes no own output", "fn passed", "if output == ANY { symbol } else { output }", "if output == ANY || output == 65_534 { symbol } else { output }"),
    ("0 in a string passes", "pub fn apply", "x == 0 || x == BARRED", "x == BARRED"),
    ("join origins one short pass", "pub fn compose", "origins.len() < JOIN_ORIGINS", "origins.len() < JOIN_ORIGINS - 1"),
    ("path buffers of 1,024 wanted", "", "pub const PATH_ARCS: usize = 1_023;", "pub const PATH_ARCS: usize = 1_024;"),
    ("14 before 10", "pub fn nth", "if arcs.len() < PATH_ARCS", "if !endless(&t) && arcs.len() < PATH_ARCS"),
    ("15 before 14", "pub fn nth", "if endless(&t) {", "if endless(&t) && k < 99 {"),
    ("empty labels kept in the output", "pub fn path_writes", "x != 0", "x < 65_535"),
    ("lattice final before the end", "pub fn lattice", "place == code.len()", "place <= code.len()"),
    ("numbers of a lattice from the joined trim", "pub fn apply", "kept.iter().map(|&i| from[i]).collect()", "kept.clone()"),
    ("no acceptance leaves no state", "pub fn trimmed", "states: 1, start: 0", "states: t.states, start: t.start"),
    ("ties to the later arc", "fn least_path", "t.arcs.iter().position(", "t.arcs.iter().rposition("),
    ("write tests what lies behind", "pub fn write", "if fields.len() < 4 * m || arc_weights.len() < m {",
     "if fields.len() != 4 * m || arc_weights.len() < m {"),
    ("write cuts numbers to 16 bits", "pub fn write", "let [n, m, f, start] = head;", "let [n, m, f, start] = head.map(|x| x % 65_536);"),
    ("listing: an odd byte passed over", "fn listed", "if code.len() % 2 != 0 {", "if code.len() % 2 > 1 {"),
    ("listing: code before tables", "fn listed", "let mut table = vec![0; TABLE_BYTES];",
     "if code.len() % 2 != 0 { return refused(9); } let mut table = vec![0; TABLE_BYTES];"),
    ("listing: 10 after the tables", "pub fn list(", "return (10, 0, 0);",
     "return (parse(left).and(parse(right)).err().unwrap_or(10), 0, 0);"),
    ("listing: a refusal keeps the buffer", "pub fn list(", "fill(out, text.as_bytes());",
     "if said == 0 { fill(out, text.as_bytes()); }"),
    ("listing: no text after a refusal is counted", "pub fn list(", "(0, text.len() as u32, said)",
     "(0, if said == 0 { text.len() as u32 } else { 0 }, said)"),
    ("listing: what the text says refuses the call", "pub fn list(", "(0, text.len() as u32, said)", "(said, text.len() as u32, said)"),
    ("listing: buffer one short passes", "", "65534\".len()) - 10;", "65534\".len()) - 11;"),
    ("listing: numbers of two digits alone", "", "65534\".len()) - 10;", "65534\".len());"),
    ("cascade: origins one short pass", "pub fn cascade(", "origins.len() < JOIN_ORIGINS", "origins.len() < JOIN_ORIGINS - 1"),
    ("cascade: a string of 64 refused", "fn cascade_inputs", "code.len() > MAX_CODE", "code.len() >= MAX_CODE"),
    ("cascade: endless counted as 99", "pub fn cascade_readings", "count(&bytes_of(&joined.table))",
     "match count(&bytes_of(&joined.table)) { (14, _) => (0, 99), told => told }"),
    ("cascade listing: an odd byte passed over", "fn cascade_listed", "code.len() % 2 != 0 ||", "code.len() % 2 > 1 ||"),
    ("cascade listing: 10 after the tables", "pub fn cascade_list", "return (10, 0, 0);",
     "return (parse(left).and(parse(right)).err().unwrap_or(10), 0, 0);"),
    ("cascade listing: a refusal keeps the buffer", "pub fn cascade_list", "fill(out, text.as_bytes());",
     "if said == 0 { fill(out, text.as_bytes()); }"),
    ("chain: string before tables", "pub fn readings", "let (refused, length) = compose(",
     "if code.len() > MAX_CODE { return (9, 0); } let (refused, length) = compose("),
]


def main():
    parser = argparse.ArgumentParser()
    parser.add_argument("--all", action="store_true", help="plant the second list as well")
    parser.add_argument("--cases", type=int, default=3000)
    parser.add_argument("--only", help="plant the faults whose name has this text")
    options = parser.parse_args()
    faults = FAULTS + (MORE if options.all or options.only else [])
    if options.only:
        faults = [f for f in faults if options.only in f[0]]
    library = os.environ.get("FORTHWN_LIB_DIR")
    if not library:
        made = subprocess.run([os.path.join(ROOT, "tools", "build"), "forthwn"], stdout=subprocess.PIPE, text=True)
        if made.returncode != 0:
            return 1
        library = os.path.dirname(made.stdout.strip())
    library = os.path.abspath(library)
    clean = text_of("model.rs")
    work = tempfile.mkdtemp(prefix="faults-")
    missed = []
    began = time.time()
    try:
        build_driver(work, clean, library)
        # The clean copy must agree, or a found fault says nothing.
        for number, fault in enumerate([("none", "", "", "")] + faults):
            result = try_fault(work, clean, fault, options.cases)
            good = result == "agrees" if number == 0 else result.startswith("found")
            if not good:
                missed.append(fault[0])
            print(f"{number:2} {fault[0]}: {result}", flush=True)
    finally:
        shutil.rmtree(work)
    seconds = time.time() - began
    print(f"{len(faults)} faults planted, {len(missed)} not as wanted, {seconds:.0f} seconds")
    for name in missed:
        print(f"  {name}")
    return 1 if missed else 0


def text_of(name):
    with open(os.path.join(HERE, name)) as f:
        return f.read()


def put(work, name, text):
    with open(os.path.join(work, name), "w") as f:
        f.write(text)


def renamed(text):
    """The calls under names that do not meet those of the static library."""
    return text.replace("forthwn_", "planted_")


def rustc(work, *arguments):
    command = ["rustc", "--edition", "2021", "--cap-lints", "allow", *arguments]
    build = subprocess.run(command, cwd=work, capture_output=True, text=True)
    if build.returncode != 0:
        raise RuntimeError(build.stderr.strip())


def build_driver(work, clean, library):
    """The driver, with the static library on one side and whatever model the shared library has on the other."""
    for name in os.listdir(HERE):
        if name.endswith(".rs"):
            put(work, name, text_of(name))
    put(work, "shim.rs", renamed(text_of("shim.rs")))
    put(work, "planted.rs", renamed(text_of("library.rs")))
    build_faulty(work, clean)
    rustc(work, "-O", "--cfg", "have_all", "--cfg", "planted", "main.rs", "-o", "driver",
          "-L", f"native={library}", "-l", "static=forthwn", "-L", f"native={work}", "-l", "dylib=planted")


def build_faulty(work, source):
    put(work, "faulty.rs", source)
    rustc(work, "-C", "opt-level=1", "--cfg", "faulty", "--crate-type", "cdylib", "--crate-name", "planted", "shim.rs")


def try_fault(work, clean, fault, cases):
    _, after, old, new = fault
    at = clean.find(after)
    at = clean.find(old, at) if at >= 0 else -1
    if at < 0:
        return "NOT PLANTED: text not in model.rs"
    try:
        build_faulty(work, clean[:at] + new + clean[at + len(old):])
    except RuntimeError as error:
        return f"NOT BUILT: {error}"
    try:
        run = subprocess.run(["./driver", "--cases", str(cases), "--out", "out"], cwd=work,
                             env={**os.environ, "LD_LIBRARY_PATH": work},
                             capture_output=True, text=True, timeout=300)
    except subprocess.TimeoutExpired:
        return "NOT FOUND: no end within 300 seconds"
    if run.returncode == 0:
        return "agrees"
    # A copy that stops by itself, as by an index out of range, was not found by comparing; the driver has named the case.
    if "panicked at faulty.rs" in run.stderr:
        with open(os.path.join(work, "out", "running.txt")) as f:
            return f"NOT FOUND: the faulty copy panics in {f.read().split('--')[-1].strip()}"
    lines = run.stdout.splitlines()
    failed = [i for i, x in enumerate(lines) if "FAILED" in x]
    if run.returncode != 1 or not failed:
        return f"NOT FOUND: exit code {run.returncode}"
    return f"found, {lines[failed[0]].replace(' FAILED', '')}, {lines[failed[0] + 1]}"


if __name__ == "__main__":
    sys.exit(main())
