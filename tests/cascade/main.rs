// The cascade, in which a string is applied to the left table before anything is
// composed, through the exported calls of the static library: tests/cascade/run
// builds and runs it.
//
// For random pairs of small tables, of which both may have arcs for any symbol,
// and some strings: the accepting paths in the cascade's bytes, led back by its
// origins, must be the pairs of accepting paths that ../triples/brute.rs finds by
// following arcs: the same two paths, output and cost, each once. The count and
// the least cost must be those of the pairs, `cascade_readings` must answer that
// count, and the text of `cascade_list` must be the one that the count and the
// k-th paths give. For tables with cycles those pairs are compared that have few
// arcs. Where the first chain (compose, then apply) is not refused, it must tell
// the same count and the same least cost; and its text must be the cascade's, since
// both chains take the same steps in the same order from states that stand for one
// another, though these are numbered otherwise.
//
//   --seed N     seed of the cases; the default is printed
//   --cases N    how many cases (4,000)
//   --case K     case K of the seed alone, with its tables
//   --catalogue FOLDER     instead: the catalogue that bench/catalogue.py makes (catalogue.rs)
//
// Exit code 0 when all agree, 1 when not, 2 for a wrong option.
#![allow(unexpected_cfgs)]

mod catalogue;

// Pairs by following arcs, and random tables, as tests/triples has them.
#[path = "../triples/brute.rs"]
mod brute;
#[path = "../triples/tables.rs"]
mod tables;

// Bytes of a table, and the calls of the library, as tests/second has them.
#[path = "../second/library.rs"]
mod library;
#[path = "../second/model.rs"]
mod model;
#[path = "../second/rng.rs"]
mod rng;

use brute::Found;
use model::{bytes_of, Table, ANY, STILL};
use rng::Rng;
use std::time::Instant;

const SEED: u64 = 20_240_601;
const CASES: usize = 4_000;

/// A buffer of at least the least length, with something in it.
fn lent<T: Clone>(rng: &mut Rng, least: usize, of: fn(u64) -> T) -> Vec<T> {
    vec![of(rng.next()); least + rng.pick(&[0, 0, 1, 9])]
}

/// A table as a call wrote it, with the left and the right arc that each arc comes from.
struct Made {
    bytes: Vec<u8>,
    from: Vec<[Option<usize>; 3]>,
}

/// The two origins of an arc; the third table of brute.rs is not there.
fn two_origins(origins: &[u16], arc: usize) -> [Option<usize>; 3] {
    let origin = |side: usize| Some(origins[2 * arc + side]).filter(|&x| x != STILL).map(usize::from);
    [origin(0), origin(1), None]
}

fn arcs_of(bytes: &[u8]) -> Result<usize, String> {
    model::parse(bytes).map(|t| t.arcs.len()).map_err(|r| format!("the bytes written are refused by {r}"))
}

/// The cascade, or its refusal.
fn cascade(rng: &mut Rng, left: &[u8], right: &[u8], string: &[u16]) -> Result<Result<Made, u32>, String> {
    let mut table = lent(rng, model::TABLE_BYTES, |x| x as u8);
    let mut origins = lent(rng, model::JOIN_ORIGINS, |x| x as u16);
    let mut states = lent(rng, model::WORK_STATES, |x| x as u32);
    let (refused, length) = library::cascade(left, right, string, &mut table, &mut origins, &mut states);
    if refused != 0 {
        return Ok(Err(refused));
    }
    table.truncate(length as usize);
    let from = (0..arcs_of(&table)?).map(|i| two_origins(&origins, i)).collect();
    Ok(Ok(Made { bytes: table, from }))
}

/// The first chain: the lattice of the string on the composition, or None where a call is refused.
fn chain(rng: &mut Rng, left: &[u8], right: &[u8], string: &[u16]) -> Result<Option<Made>, String> {
    let mut table = lent(rng, model::TABLE_BYTES, |x| x as u8);
    let mut origins = lent(rng, model::JOIN_ORIGINS, |x| x as u16);
    let mut work = lent(rng, model::WORK_STATES, |x| x as u32);
    let (refused, length) = library::compose(left, right, &mut table, &mut origins, &mut work);
    if refused != 0 {
        return Ok(None);
    }
    let mut lattice = lent(rng, model::TABLE_BYTES, |x| x as u8);
    let mut arcs = lent(rng, model::LATTICE_ORIGINS, |x| x as u16);
    let composed = &table[..length as usize];
    let (refused, length) = library::apply(string, composed, &mut lattice, &mut arcs, &mut work);
    if refused != 0 {
        return Ok(None);
    }
    lattice.truncate(length as usize);
    let from = (0..arcs_of(&lattice)?).map(|i| two_origins(&origins, arcs[i] as usize)).collect();
    Ok(Some(Made { bytes: lattice, from }))
}

/// What is told of a run of bytes: count and least cost, each with its refusal.
#[derive(Debug, PartialEq, Clone, Copy)]
struct Told {
    count: (u32, u32),
    cost: (u32, i64),
}

fn told(rng: &mut Rng, bytes: &[u8]) -> Told {
    let mut arcs = lent(rng, model::PATH_ARCS, |x| x as u16);
    let mut labels = lent(rng, model::PATH_ARCS, |x| x as u16);
    let (refused, path) = library::shortest(bytes, &mut arcs, &mut labels);
    Told { count: library::count(bytes), cost: (refused, path.0) }
}

/// The listing's text, by the count and the k-th paths of a run of bytes.
fn text(rng: &mut Rng, bytes: &[u8], count: (u32, u32)) -> String {
    let number = match count {
        (14, _) => return "readings endless\n".to_string(),
        (_, 99) => return "readings 99+\n".to_string(),
        (_, n) => n,
    };
    let mut out = format!("readings {number}\n");
    for k in 0..number {
        let mut arcs = lent(rng, model::PATH_ARCS, |x| x as u16);
        let mut labels = lent(rng, model::PATH_ARCS, |x| x as u16);
        let (_, (cost, _, n)) = library::nth(bytes, k, &mut arcs, &mut labels);
        let written: String = labels[..n as usize].iter().map(|x| format!(" {x}")).collect();
        out += &format!("{k} {cost}{written}\n");
    }
    out
}

#[derive(Default)]
struct Seen {
    refused: [u64; 19],
    /// Count 0, 1, 2 to 98, 99 and more, infinitely many.
    counts: [u64; 5],
    whole: u64,
    bounded: u64,
    unlisted: u64,
    pairs: u64,
    left_any: u64,
    chains: u64,
    /// The first chain is refused by 18, or for room, and the cascade is not.
    cascade_alone: u64,
    /// Both chains answer, by tables that differ.
    bytes_differ: u64,
    falling: u64,
}

/// What the cascade tells against the pairs.
fn against_pairs(told: Told, found: &Found, made: &Made, seen: &mut Seen) -> Result<(), String> {
    let Found { triples: Some(pairs), budget } = found else {
        seen.unlisted += 1;
        return Ok(());
    };
    let least = pairs.iter().map(|x| x.cost).min();
    let listed = pairs.len().min(model::MANY) as u32;
    if budget.is_none() {
        let wanted = Told { count: (0, listed), cost: least.map_or((16, 0), |c| (0, c)) };
        if told != wanted {
            return Err(format!("the cascade tells {told:?}, and the pairs give {wanted:?}"));
        }
        seen.whole += 1;
    } else {
        // There may be more pairs than these, and no least cost.
        let fewer = told.count.0 == 0 && told.count.1 < listed;
        let dearer = least.is_some_and(|c| told.cost.0 != 19 && (told.cost.0 != 0 || told.cost.1 > c));
        if fewer || dearer {
            return Err(format!("the cascade tells {told:?}, and there are {listed} pairs of least cost {least:?} or more"));
        }
        seen.bounded += 1;
    }
    let Some(paths) = brute::in_bytes(&made.bytes, &made.from, *budget) else {
        seen.unlisted += 1;
        return Ok(());
    };
    if let Some(e) = brute::difference(&paths, pairs) {
        return Err(format!("paths of the cascade: {e}"));
    }
    seen.pairs += pairs.len() as u64;
    Ok(())
}

fn one(rng: &mut Rng, tables: &[Table; 2], string: &[u16], seen: &mut Seen) -> Result<(), String> {
    let [left, right] = [0, 1].map(|i| bytes_of(&tables[i]));
    let readings = library::cascade_readings(&left, &right, string);
    let mut out = lent(rng, model::TEXT_BYTES, |x| x as u8);
    let code: Vec<u8> = string.iter().flat_map(|x| x.to_le_bytes()).collect();
    let (refused, length, said) = library::cascade_list(&left, &right, &code, &mut out);
    let printed = String::from_utf8_lossy(&out[..length as usize]).to_string();
    let made = match cascade(rng, &left, &right, string)? {
        Ok(made) => made,
        Err(refusal @ 11..=13) => {
            seen.refused[refusal as usize] += 1;
            let wanted = ((refusal, 0), (0, refusal), format!("refused {refusal}\n"));
            return same("the calls beside a refusal", (readings, (refused, said), printed), wanted);
        }
        Err(refusal) => return Err(format!("the cascade is refused by {refusal}")),
    };
    let now = told(rng, &made.bytes);
    let class = match now.count {
        (14, 0) => 4,
        (0, n @ 0..=1) => n as usize,
        (0, 2..=98) => 2,
        (0, 99) => 3,
        other => return Err(format!("the count answers {other:?}")),
    };
    seen.counts[class] += 1;
    seen.falling += u64::from(now.cost.0 == 19);
    same("the one call", readings, now.count)?;
    same("the listing", ((refused, said), printed), ((0, 0), text(rng, &made.bytes, now.count)))?;
    against_pairs(now, &brute::pairs(&tables[0], &tables[1], string), &made, seen)?;
    seen.left_any += u64::from(model::has_any(&tables[0]));
    let Some(first) = chain(rng, &left, &right, string)? else {
        seen.cascade_alone += 1;
        return Ok(());
    };
    seen.chains += 1;
    seen.bytes_differ += u64::from(first.bytes != made.bytes);
    same("beside the first chain", now, told(rng, &first.bytes))?;
    same("the texts of both chains", text(rng, &made.bytes, now.count), text(rng, &first.bytes, now.count))
}

fn same<T: PartialEq + std::fmt::Debug>(what: &str, got: T, wanted: T) -> Result<(), String> {
    if got == wanted { Ok(()) } else { Err(format!("{what}: {got:?}, not {wanted:?}")) }
}

/// Two tables and some strings. The left one has arcs for any symbol in every second case, the right one now and then.
fn case(rng: &mut Rng) -> ([Table; 2], Vec<Vec<u16>>) {
    // A line that writes nothing beside one that reads nothing: as many states as both have, multiplied.
    if rng.chance(1, 150) {
        let n = rng.range(30, 35);
        return ([tables::silent(n, 1, 0), tables::silent(n, 0, 2)], vec![vec![1; n - 1]]);
    }
    let ([mut left, second, third], mut strings) = tables::case(rng);
    if rng.chance(1, 2) {
        let often = rng.pick(&[1, 2, 4]);
        for a in &mut left.arcs {
            if rng.chance(1, often) {
                a.input = ANY;
                a.output = rng.pick(&[ANY, ANY, a.output, 0]);
            }
        }
    }
    strings.push(tables::along(rng, &left));
    for string in &mut strings {
        for x in string.iter_mut().filter(|x| **x == ANY) {
            *x = rng.range(1, 3) as u16;
        }
    }
    strings.sort();
    strings.dedup();
    ([left, if rng.chance(1, 2) { second } else { third }], strings)
}

fn run(seed: u64, range: std::ops::Range<usize>) -> bool {
    let single = range.len() == 1;
    let (mut seen, began) = (Seen::default(), Instant::now());
    for k in range.clone() {
        let mut rng = Rng::new(seed, k as u64);
        let (tables, strings) = case(&mut rng);
        if single {
            println!("{tables:#?}\nstrings {strings:?}");
        }
        for string in &strings {
            if let Err(e) = one(&mut rng, &tables, string, &mut seen) {
                println!("case {k} FAILED: string {string:?}: {e}\nreproduce: tests/cascade/run --seed {seed} --case {k}");
                return false;
            }
        }
    }
    let Seen { refused, counts, whole, bounded, unlisted, pairs, left_any, chains, cascade_alone, bytes_differ, falling } = seen;
    println!("seed {seed}, {} cases, {:.1} seconds", range.len(), began.elapsed().as_secs_f64());
    println!("refused: {} by 11, {} by 12, {} by 13", refused[11], refused[12], refused[13]);
    let [none, one, some, many, endless] = counts;
    println!("counts: {none} of 0, {one} of 1, {some} of 2 to 98, {many} of 99 and more, {endless} infinitely many; {falling} without a least cost");
    println!("listed: {whole} whole, {bounded} up to {} arcs, {unlisted} not; {pairs} pairs in all", brute::FEW);
    println!("left tables with arcs for any symbol: {left_any}; the first chain is refused and the cascade is not: {cascade_alone}");
    println!("beside the first chain: {chains}, by tables that differ in {bytes_differ}");
    let met = [&counts[..], &refused[11..=13], &[whole, bounded, left_any, chains, cascade_alone, bytes_differ, falling]].concat();
    if !single && met.contains(&0) {
        println!("FAILED: something that should be met never was");
        return false;
    }
    println!("all {} cases agree", range.len());
    true
}

fn main() {
    let (mut seed, mut cases, mut only) = (SEED, CASES, None);
    let mut words = std::env::args().skip(1);
    while let Some(word) = words.next() {
        let value = words.next().unwrap_or_default();
        if word == "--catalogue" {
            std::process::exit(i32::from(!catalogue::run(&value)));
        }
        match (word.as_str(), value.parse().ok()) {
            ("--seed", Some(n)) => seed = n,
            ("--cases", Some(n)) => cases = n as usize,
            ("--case", Some(n)) => only = Some(n as usize),
            _ => {
                println!("wrong option: {word}");
                std::process::exit(2);
            }
        }
    }
    let range = only.map_or(0..cases, |k| k..k + 1);
    std::process::exit(i32::from(!run(seed, range)));
}
