// Three tables in either bracket (paper 02, Point 14), through the exported
// calls of the static library: tests/triples/run builds and runs it.
//
// For random triples of small tables the first two are composed and then the
// third, and the last two and then the first. Where none of the four calls is
// refused, strings are applied to both results. Of the two results, and of the
// two lattices of each string, count and shortest cost must be equal, and the
// accepting paths in the bytes, led back by the origins, must be the triples of
// accepting paths of the three tables that brute.rs finds: the same three
// paths, input, output and cost. For tables with cycles those triples are
// compared that have few arcs, and count and cost mostly with each other.
// Beside the two lattices stand two cascades, in which the string is applied to
// the first table before anything is composed: with the second table and then
// the third, and with the composition of these two.
//
//   --seed N     seed of the cases; the default is printed
//   --cases N    how many cases (3,000)
//   --case K     case K of the seed alone, with its tables
//
// Exit code 0 when all agree, 1 when not, 2 for a wrong option.
#![allow(unexpected_cfgs)]

mod brute;
mod tables;

// Bytes of a table, and the calls of the library, as tests/second has them.
#[path = "../second/library.rs"]
mod library;
#[path = "../second/model.rs"]
mod model;
#[path = "../second/rng.rs"]
mod rng;

use brute::Found;
use model::{bytes_of, Table, STILL};
use rng::Rng;
use std::time::Instant;

const SEED: u64 = 20_240_314;
const CASES: usize = 3_000;

/// What a call wrote: the bytes at the length told, the origins as left.
struct Written {
    bytes: Vec<u8>,
    origins: Vec<u16>,
}

/// A buffer of at least the least length, with something in it.
fn lent<T: Clone>(rng: &mut Rng, least: usize, of: fn(u64) -> T) -> Vec<T> {
    vec![of(rng.next()); least + rng.pick(&[0, 0, 1, 9])]
}

fn written(answer: (u32, u32), table: Vec<u8>, origins: Vec<u16>) -> Result<Written, u32> {
    match answer {
        (0, length) => Ok(Written { bytes: table[..length as usize].to_vec(), origins }),
        (refusal, _) => Err(refusal),
    }
}

fn compose(rng: &mut Rng, left: &[u8], right: &[u8]) -> Result<Written, u32> {
    let mut table = lent(rng, model::TABLE_BYTES, |x| x as u8);
    let mut origins = lent(rng, model::JOIN_ORIGINS, |x| x as u16);
    let mut states = lent(rng, model::WORK_STATES, |x| x as u32);
    written(library::compose(left, right, &mut table, &mut origins, &mut states), table, origins)
}

fn apply(rng: &mut Rng, string: &[u16], bytes: &[u8]) -> Result<Written, u32> {
    let mut table = lent(rng, model::TABLE_BYTES, |x| x as u8);
    let mut origins = lent(rng, model::LATTICE_ORIGINS, |x| x as u16);
    let mut pairs = lent(rng, model::WORK_STATES, |x| x as u32);
    written(library::apply(string, bytes, &mut table, &mut origins, &mut pairs), table, origins)
}

fn cascade(rng: &mut Rng, left: &[u8], right: &[u8], string: &[u16]) -> Result<Written, u32> {
    let mut table = lent(rng, model::TABLE_BYTES, |x| x as u8);
    let mut origins = lent(rng, model::JOIN_ORIGINS, |x| x as u16);
    let mut states = lent(rng, model::WORK_STATES, |x| x as u32);
    written(library::cascade(left, right, string, &mut table, &mut origins, &mut states), table, origins)
}

/// The left (0) or right (1) arc that an arc comes from, if any.
fn origin(origins: &[u16], arc: usize, side: usize) -> Option<usize> {
    Some(origins[2 * arc + side] as usize).filter(|&x| x != STILL as usize)
}

/// A result with the arcs of the three tables that each of its arcs comes from.
struct Bracket {
    bytes: Vec<u8>,
    from: Vec<[Option<usize>; 3]>,
}

/// How many arcs a result has.
fn arcs_of(made: &Written) -> usize {
    model::parse(&made.bytes).map_or(0, |t| t.arcs.len())
}

/// The two arcs that an arc of an inner composition comes from, where there is one.
fn inner(made: &Written, arc: Option<usize>) -> [Option<usize>; 2] {
    [0, 1].map(|side| arc.and_then(|i| origin(&made.origins, i, side)))
}

/// A result whose left side is a result of the first two tables.
fn two_and_one(ab: &Written, ab_c: Written) -> Bracket {
    let from = |i| {
        let [x, y] = inner(ab, origin(&ab_c.origins, i, 0));
        [x, y, origin(&ab_c.origins, i, 1)]
    };
    let from = (0..arcs_of(&ab_c)).map(from).collect();
    Bracket { bytes: ab_c.bytes, from }
}

/// A result whose right side is the composition of the last two tables.
fn one_and_two(bc: &Written, a_bc: Written) -> Bracket {
    let from = |i| {
        let [y, z] = inner(bc, origin(&a_bc.origins, i, 1));
        [origin(&a_bc.origins, i, 0), y, z]
    };
    let from = (0..arcs_of(&a_bc)).map(from).collect();
    Bracket { bytes: a_bc.bytes, from }
}

/// The four compositions, or the refusal of the first one that is refused; then the composition of the last two tables.
fn brackets(rng: &mut Rng, tables: &[Vec<u8>; 3]) -> Result<([Bracket; 2], Written), u32> {
    let [a, b, c] = tables;
    let ab = compose(rng, a, b)?;
    let ab_c = compose(rng, &ab.bytes, c)?;
    let bc = compose(rng, b, c)?;
    let a_bc = compose(rng, a, &bc.bytes)?;
    Ok(([two_and_one(&ab, ab_c), one_and_two(&bc, a_bc)], bc))
}

/// The string applied to the first table, its lattice composed with the second and then with the third, or with the composition of these two.
fn cascades(rng: &mut Rng, string: &[u16], tables: &[Vec<u8>; 3], bc: &Written) -> Result<[Bracket; 2], u32> {
    let [a, b, c] = tables;
    let ab = cascade(rng, a, b, string)?;
    let ab_c = compose(rng, &ab.bytes, c)?;
    let a_bc = cascade(rng, a, &bc.bytes, string)?;
    Ok([two_and_one(&ab, ab_c), one_and_two(bc, a_bc)])
}

/// A lattice of a result: the origin of each of its arcs is an arc of it.
fn lattice(rng: &mut Rng, string: &[u16], of: &Bracket) -> Result<Bracket, u32> {
    let made = apply(rng, string, &of.bytes)?;
    let arcs = model::parse(&made.bytes).map_or(0, |t| t.arcs.len());
    let from = (0..arcs).map(|i| of.from[made.origins[i] as usize]).collect();
    Ok(Bracket { bytes: made.bytes, from })
}

/// What is told of a run of bytes: count, shortest cost, each with its refusal.
#[derive(Debug, PartialEq, Clone, Copy)]
struct Told {
    count: (u32, u32),
    cost: (u32, i64),
}

/// The answers, and the arcs of the shortest path.
fn told(rng: &mut Rng, bytes: &[u8]) -> (Told, Vec<u16>) {
    let mut arcs = lent(rng, model::PATH_ARCS, |x| x as u16);
    let mut labels = lent(rng, model::PATH_ARCS, |x| x as u16);
    let (refusal, path) = library::shortest(bytes, &mut arcs, &mut labels);
    arcs.truncate(path.1 as usize);
    (Told { count: library::count(bytes), cost: (refusal, path.0) }, arcs)
}

#[derive(Default)]
struct Seen {
    refused: [u64; 17],
    unapplied: u64,
    /// Count 0, 1, 2 to 98, 99 and more, infinitely many.
    counts: [u64; 5],
    whole: u64,
    bounded: u64,
    unlisted: u64,
    triples: u64,
    results_differ: u64,
    arcs_differ: u64,
    falling: u64,
    cascades: u64,
    cascades_refused: u64,
}

/// Compares the two sides with each other and with the triples; what both tell.
fn compare(rng: &mut Rng, sides: &[Bracket; 2], found: &Found, seen: &mut Seen) -> Result<Told, String> {
    let (left, left_arcs) = told(rng, &sides[0].bytes);
    let (right, right_arcs) = told(rng, &sides[1].bytes);
    if left != right {
        return Err(format!("the first bracket tells {left:?}, the second {right:?}"));
    }
    let class = match left.count {
        (14, 0) => 4,
        (0, n @ 0..=1) => n as usize,
        (0, 2..=98) => 2,
        (0, 99) => 3,
        other => return Err(format!("the count answers {other:?}")),
    };
    seen.counts[class] += 1;
    seen.arcs_differ += u64::from(left_arcs != right_arcs);
    seen.falling += u64::from(left.cost.0 == 19);
    let Found { triples: Some(triples), budget } = found else {
        seen.unlisted += 1;
        return Ok(left);
    };
    let least = triples.iter().map(|x| x.cost).min();
    let listed = triples.len().min(model::MANY) as u32;
    if budget.is_none() {
        let wanted = Told { count: (0, listed), cost: least.map_or((16, 0), |c| (0, c)) };
        if left != wanted {
            return Err(format!("both tell {left:?}, and the triples give {wanted:?}"));
        }
        seen.whole += 1;
    } else {
        // There may be more triples than these, and no least cost.
        let fewer = left.count.0 == 0 && left.count.1 < listed;
        let dearer = least.is_some_and(|c| left.cost.0 != 19 && (left.cost.0 != 0 || left.cost.1 > c));
        if fewer || dearer {
            return Err(format!("both tell {left:?}, and there are {listed} triples of least cost {least:?} or more"));
        }
        seen.bounded += 1;
    }
    for (side, name) in sides.iter().zip(["first", "second"]) {
        let Some(paths) = brute::in_bytes(&side.bytes, &side.from, *budget) else {
            seen.unlisted += 1;
            return Ok(left);
        };
        if let Some(e) = brute::difference(&paths, triples) {
            return Err(format!("paths of the {name} bracket: {e}"));
        }
    }
    seen.triples += triples.len() as u64;
    Ok(left)
}

fn case(rng: &mut Rng, tables: &[Table; 3], strings: &[Vec<u16>], seen: &mut Seen) -> Result<(), String> {
    let bytes = [0, 1, 2].map(|i| bytes_of(&tables[i]));
    let (results, last_two) = match brackets(rng, &bytes) {
        Ok(x) => x,
        Err(refusal) => {
            seen.refused[refusal as usize % 17] += 1;
            return if refusal > 10 { Ok(()) } else { Err(format!("a composition is refused by {refusal}")) };
        }
    };
    seen.results_differ += u64::from(results[0].bytes != results[1].bytes);
    let found = brute::triples(tables, None);
    compare(rng, &results, &found, seen).map_err(|e| format!("the results: {e}"))?;
    // The strings given, and some that triples read.
    let mut strings = strings.to_vec();
    if let Some(triples) = found.triples.filter(|x| !x.is_empty()) {
        strings.extend((0..3).map(|_| triples[rng.below(triples.len())].input.clone()));
    }
    strings.sort();
    strings.dedup();
    for string in &strings {
        let [left, right] = [0, 1].map(|i| lattice(rng, string, &results[i]));
        let (Ok(left), Ok(right)) = (left, right) else {
            seen.unapplied += 1;
            continue;
        };
        let found = brute::triples(tables, Some(string));
        let told = compare(rng, &[left, right], &found, seen).map_err(|e| format!("string {string:?}: {e}"))?;
        let sides = match cascades(rng, string, &bytes, &last_two) {
            Ok(sides) => sides,
            Err(11..=13) => {
                seen.cascades_refused += 1;
                continue;
            }
            Err(refusal) => return Err(format!("string {string:?} first: a call is refused by {refusal}")),
        };
        let first = compare(rng, &sides, &found, seen).map_err(|e| format!("string {string:?} first: {e}"))?;
        if first != told {
            return Err(format!("string {string:?}: applied first {first:?}, applied to the brackets {told:?}"));
        }
        seen.cascades += 1;
    }
    Ok(())
}

fn run(seed: u64, range: std::ops::Range<usize>) -> bool {
    let single = range.len() == 1;
    let (mut seen, began) = (Seen::default(), Instant::now());
    for k in range.clone() {
        let mut rng = Rng::new(seed, k as u64);
        let (tables, strings) = tables::case(&mut rng);
        if single {
            println!("{tables:#?}\nstrings {strings:?}");
        }
        if let Err(e) = case(&mut rng, &tables, &strings, &mut seen) {
            println!("case {k} FAILED: {e}\nreproduce: tests/triples/run --seed {seed} --case {k}");
            return false;
        }
    }
    let Seen { refused, unapplied, counts, whole, bounded, unlisted, triples, results_differ, arcs_differ, falling, .. } = seen;
    let Seen { cascades, cascades_refused, .. } = seen;
    println!("seed {seed}, {} cases, {:.1} seconds", range.len(), began.elapsed().as_secs_f64());
    println!("refused: {} by 11, {} by 12, {} by 13, {unapplied} strings", refused[11], refused[12], refused[13]);
    let [none, one, some, many, endless] = counts;
    println!("counts: {none} of 0, {one} of 1, {some} of 2 to 98, {many} of 99 and more, {endless} infinitely many; {falling} without a least cost");
    println!("listed: {whole} whole, {bounded} up to {} arcs, {unlisted} not; {triples} triples in all", brute::FEW);
    println!(
        "of the two brackets {results_differ} results differ as bytes, and {arcs_differ} shortest paths in their arcs"
    );
    println!("strings applied first: {cascades} compared, {cascades_refused} refused");
    let met = [&counts[..], &refused[11..=13], &[whole, bounded, results_differ, arcs_differ, falling, cascades]].concat();
    if !single && met.contains(&0) {
        println!("FAILED: something that should be met never was");
        return false;
    }
    println!("all {} cases agree", range.len());
    true
}

fn main() {
    let (mut seed, mut cases, mut only) = (SEED, CASES, None);
    let mut words = std::env::args().skip(1);
    while let Some(word) = words.next() {
        let number = words.next().and_then(|x| x.parse().ok());
        match (word.as_str(), number) {
            ("--seed", Some(n)) => seed = n,
            ("--cases", Some(n)) => cases = n as usize,
            ("--case", Some(n)) => only = Some(n as usize),
            _ => {
                println!("wrong option: {word}");
                std::process::exit(2);
            }
        }
    }
    let range = only.map_or(0..cases, |k| k..k + 1);
    std::process::exit(i32::from(!run(seed, range)));
}
