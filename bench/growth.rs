//! Times our calls for bench/growth: for each line `CALL NAME FILE..` of the standard input a line `CALL NAME NANOSECONDS ANSWER`.
use forthwn::{Refusal, lent};
use std::hint::black_box;
use std::time::Instant;

/// The least of batches of at least 20 microseconds within 30 milliseconds, as growth.cc takes it.
fn least_ns(call: &mut dyn FnMut() -> usize) -> f64 {
    let first = Instant::now();
    black_box(call());
    let batch = (20_000.0 / (first.elapsed().as_nanos() as f64).max(1.0)).max(1.0) as u32;
    let (mut least, begun) = (f64::INFINITY, Instant::now());
    let mut i = 0;
    while i < 5 || begun.elapsed().as_millis() < 30 {
        let at = Instant::now();
        for _ in 0..batch {
            black_box(call());
        }
        least = least.min(at.elapsed().as_nanos() as f64 / f64::from(batch));
        i += 1;
    }
    least
}

/// The states of a table that a call has written.
fn states(table: &[u8]) -> usize {
    usize::from(u16::from_le_bytes([table[4], table[5]]))
}

/// The start of a table.
fn start(table: &[u8]) -> usize {
    usize::from(u16::from_le_bytes([table[10], table[11]]))
}

/// The call as a function that tells the number it comes to: states, a count (14 where infinitely many), a cost.
fn call_of(call: &str, files: Vec<Vec<u8>>) -> Box<dyn FnMut() -> usize> {
    let (mut table, mut origins, mut work) = (vec![0; lent::TABLE], vec![0; lent::ORIGINS], vec![0; lent::STATES]);
    let (mut arcs, mut labels, mut cells) = (vec![0; lent::PATH], vec![0; lent::PATH], vec![0; lent::CELLS]);
    match call {
        "refusal" => Box::new(move || {
            lent::accepts(black_box(&files[0])).expect("accepts");
            states(&files[0])
        }),
        "compose" => Box::new(move || {
            lent::compose(&files[0], &files[1], &mut table, &mut origins, &mut work).expect("compose");
            states(&table)
        }),
        "apply" => Box::new(move || {
            lent::apply(&[], &files[0], &mut table, &mut origins[..lent::LATTICE_ORIGINS], &mut work).expect("apply");
            states(&table)
        }),
        "trim" => Box::new(move || {
            lent::trim(&files[0], &mut table, &mut origins[..lent::LATTICE_ORIGINS]).expect("trim");
            states(&table)
        }),
        "count" => Box::new(move || lent::count(&files[0]).unwrap_or_else(Refusal::number) as usize),
        "nth" => {
            let last = lent::count(&files[0]).expect("count") - 1;
            Box::new(move || lent::nth(&files[0], last, &mut arcs, &mut labels).expect("nth").cost as usize)
        }
        "shortest" => Box::new(move || lent::shortest(&files[0], &mut arcs, &mut labels).expect("shortest").cost as usize),
        "distance" => Box::new(move || {
            lent::distance(&files[0], &mut cells).expect("distance");
            cells[start(&files[0])] as usize
        }),
        _ => panic!("no call {call}"),
    }
}

fn main() {
    for line in std::io::stdin().lines() {
        let line = line.expect("a line");
        let mut words = line.split_whitespace();
        let (call, name) = (words.next().expect("a call"), words.next().expect("a name"));
        let files = words.map(|path| std::fs::read(path).unwrap_or_else(|e| panic!("{path}: {e}"))).collect();
        let mut run = call_of(call, files);
        let answer = run();
        println!("{call} {name} {:.1} {answer}", least_ns(&mut run));
    }
}
