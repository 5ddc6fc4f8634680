// A correction table for one slip before a catalogue (bench/catalogue.py): for each code of the
// catalogue, and for whatever may be typed for it with one slip, the readings of the cascade must be
// the codes from which the typed one differs by one slip or none, each once and at its cost, found by
// comparing symbols. Composing the two tables first takes 5 codes and is refused by 11 with 10 of them.

use crate::{library, model};
use std::collections::BTreeSet;
use std::time::Instant;

const SYMBOLS: std::ops::RangeInclusive<u16> = 1..=36;
const FIRST_PART: u16 = 1_000;

fn labels(folder: &str, name: &str) -> Result<Vec<Vec<u16>>, String> {
    let bytes = file(folder, name)?;
    let all: Vec<u16> = bytes.chunks_exact(2).map(|x| u16::from_le_bytes([x[0], x[1]])).collect();
    let mut runs: Vec<Vec<u16>> = all.split(|&x| x == 0).map(<[u16]>::to_vec).collect();
    runs.pop();
    Ok(runs)
}

fn file(folder: &str, name: &str) -> Result<Vec<u8>, String> {
    std::fs::read(format!("{folder}/{name}")).map_err(|e| format!("{folder}/{name}: {e}"))
}

/// What is typed with at most one slip.
fn slips(code: &[u16], out: &mut BTreeSet<Vec<u16>>) {
    for i in 0..=code.len() {
        for x in SYMBOLS {
            out.insert([&code[..i], &[x], &code[i..]].concat());
            if i < code.len() {
                out.insert([&code[..i], &[x], &code[i + 1..]].concat());
            }
        }
        if i < code.len() {
            out.insert([&code[..i], &code[i + 1..]].concat());
        }
    }
}

/// What it costs to type one code for another, if that is one slip or none.
fn cost(typed: &[u16], code: &[u16]) -> Option<i64> {
    let without_one = |long: &[u16], short: &[u16]| (0..long.len()).any(|i| [&long[..i], &long[i + 1..]].concat() == short);
    if typed.len() == code.len() {
        let wrong = typed.iter().zip(code).filter(|x| x.0 != x.1).count();
        return [Some(0), Some(10)].get(wrong).copied().flatten();
    }
    if typed.len() == code.len() + 1 && without_one(typed, code) {
        return Some(12);
    }
    (typed.len() + 1 == code.len() && without_one(code, typed)).then_some(14)
}

/// States and arcs, at most: of the left table's lattice, and of its composition with the right one.
#[derive(Default)]
struct Largest {
    lattice: (u16, u16),
    composed: (u16, u16),
}

fn enlarge(most: &mut (u16, u16), table: &[u8]) {
    let number = |i: usize| u16::from_le_bytes([table[i], table[i + 1]]);
    *most = (most.0.max(number(4)), most.1.max(number(6)));
}

/// Cost and part of each reading.
fn readings(left: &[u8], right: &[u8], typed: &[u16], largest: &mut Largest) -> Result<BTreeSet<(i64, u16)>, String> {
    let (mut table, mut origins, mut states) = (vec![0; model::TABLE_BYTES], vec![0; model::JOIN_ORIGINS], vec![0; model::WORK_STATES]);
    let (refused, length) = library::apply(typed, left, &mut table, &mut origins, &mut states);
    if refused != 0 {
        return Err(format!("applying is refused by {refused}"));
    }
    enlarge(&mut largest.lattice, &table[..length as usize]);
    let (refused, length) = library::cascade(left, right, typed, &mut table, &mut origins, &mut states);
    if refused != 0 {
        return Err(format!("the cascade is refused by {refused}"));
    }
    let table = &table[..length as usize];
    enlarge(&mut largest.composed, table);
    let (refused, count) = library::count(table);
    if refused != 0 || count == 99 || library::cascade_readings(left, right, typed) != (refused, count) {
        return Err(format!("the count answers {refused}, {count}"));
    }
    let (mut arcs, mut labels, mut found) = (vec![0; model::PATH_ARCS], vec![0; model::PATH_ARCS], BTreeSet::new());
    for k in 0..count {
        let (_, (cost, _, n)) = library::nth(table, k, &mut arcs, &mut labels);
        if n != 1 || !found.insert((cost, labels[0])) {
            return Err(format!("reading {k} has {n} labels, or is told twice"));
        }
    }
    Ok(found)
}

/// Refusal, states and arcs of a composition; it is all zeros where it is refused.
fn composed_first(left: &[u8], right: &[u8]) -> (u32, u16, u16) {
    let (mut table, mut origins, mut states) = (vec![0; model::TABLE_BYTES], vec![0; model::JOIN_ORIGINS], vec![0; model::WORK_STATES]);
    let (refused, _) = library::compose(left, right, &mut table, &mut origins, &mut states);
    let mut size = (0, 0);
    enlarge(&mut size, &table);
    (refused, size.0, size.1)
}

fn compared(folder: &str) -> Result<(), String> {
    let (left, right, codes) = (file(folder, "left.tab")?, file(folder, "right.tab")?, labels(folder, "codes.lab")?);
    // The correction table has 38 states: composed with 5 codes in 25 states that makes 38 times 25 less the one that is not reached.
    for (name, wanted) in [("right-5.tab", (0, 949, 2_292)), ("right-10.tab", (11, 0, 0)), ("right.tab", (11, 0, 0))] {
        let made = composed_first(&left, &file(folder, name)?);
        if made != wanted {
            return Err(format!("composed first with {name}: refusal, states and arcs are {made:?}, not {wanted:?}"));
        }
    }
    let (mut typed, mut largest, mut most, began) = (BTreeSet::new(), Largest::default(), 0, Instant::now());
    for code in &codes {
        slips(code, &mut typed);
    }
    for code in &typed {
        let wanted = codes.iter().zip(FIRST_PART..).filter_map(|(c, part)| Some((cost(code, c)?, part))).collect();
        let found = readings(&left, &right, code, &mut largest).map_err(|e| format!("{code:?}: {e}"))?;
        if found != wanted {
            return Err(format!("{code:?}: the readings are {found:?}, and by comparing symbols {wanted:?}"));
        }
        most = most.max(found.len());
    }
    println!("catalogue: {} codes, {} typed with one slip or none, {:.1} seconds", codes.len(), typed.len(), began.elapsed().as_secs_f64());
    let Largest { lattice, composed } = largest;
    println!("catalogue: at most {} states and {} arcs in a lattice, {} and {} behind it, {most} readings", lattice.0, lattice.1, composed.0, composed.1);
    println!("catalogue: all readings as by comparing symbols");
    Ok(())
}

pub fn run(folder: &str) -> bool {
    compared(folder).map_err(|e| println!("catalogue FAILED: {e}")).is_ok()
}
