// Random triples of small tables, and strings for them.

use crate::model::{Arc, Table};
use crate::rng::Rng;

/// How a table is drawn.
struct Shape {
    states: usize,
    arcs: usize,
    labels: usize,
    /// Labels that are empty, of 100, on either side.
    empty: [usize; 2],
    cycles: bool,
    heaviest: usize,
}

fn label(rng: &mut Rng, labels: usize, empty: usize) -> u16 {
    if rng.chance(empty, 100) {
        0
    } else {
        rng.range(1, labels) as u16
    }
}

fn draw(rng: &mut Rng, shape: &Shape) -> Table {
    let n = shape.states;
    // Weights of one table in three go as far below 0 as above.
    let least = if rng.chance(1, 3) { -(shape.heaviest as i64) / 2 } else { 0 };
    let weight = |rng: &mut Rng| least + rng.below(shape.heaviest + 1) as i64;
    let mut arcs: Vec<Arc> = Vec::new();
    for i in 0..shape.arcs {
        // A line through all states first; then anywhere, or to higher states where there are to be no cycles.
        let (source, target) = match shape.cycles {
            _ if i + 1 < n => (i, i + 1),
            true => (rng.below(n), rng.below(n)),
            false => {
                let source = rng.below(n - 1);
                (source, rng.range(source + 1, n - 1))
            }
        };
        let input = label(rng, shape.labels, shape.empty[0]);
        let output = label(rng, shape.labels, shape.empty[1]);
        arcs.push(Arc { source, input, output, target, weight: weight(rng) });
    }
    arcs.sort_by_key(|a| a.source);
    let ends = |rng: &mut Rng, s: usize| s == n - 1 || rng.chance(1, 3);
    let mut finals = Vec::new();
    for s in 0..n {
        if ends(rng, s) && !rng.chance(1, 20) {
            finals.push((s, weight(rng)));
        }
    }
    Table { states: n, start: 0, finals, arcs }
}

/// A line of states with bundles of arcs: many like paths.
fn bundle(rng: &mut Rng, states: usize, each: usize) -> Table {
    let arc = |source, weight| Arc { source, input: 1, output: 1, target: source + 1, weight };
    let arcs = (0..(states - 1) * each).map(|i| arc(i / each, rng.below(4) as i64)).collect();
    Table { states, start: 0, finals: vec![(states - 1, 0)], arcs }
}

/// One state with loops that pass label 1 on.
fn loops(rng: &mut Rng, arcs: usize) -> Table {
    let arc = |weight| Arc { source: 0, input: 1, output: 1, target: 0, weight };
    Table { states: 1, start: 0, finals: vec![(0, 0)], arcs: (0..arcs).map(|_| arc(rng.below(4) as i64)).collect() }
}

/// A line of states that writes nothing, or reads nothing.
pub fn silent(states: usize, input: u16, output: u16) -> Table {
    let arc = |source| Arc { source, input, output, target: source + 1, weight: 1 };
    Table { states, start: 0, finals: vec![(states - 1, 0)], arcs: (0..states - 1).map(arc).collect() }
}

/// Three tables and two strings, one of them along a path of the first.
pub fn case(rng: &mut Rng) -> ([Table; 3], Vec<Vec<u16>>) {
    let mut tables = match rng.below(200) {
        // 11: silent lines that run beside each other.
        0 => {
            let n = rng.range(28, 40);
            [silent(n, 1, 0), silent(n, 0, 0), silent(rng.range(1, 3), 0, 2)]
        }
        // 12: as many arcs as there are ways to match.
        1..=2 => [0; 3].map(|_| {
            let k = rng.range(12, 17);
            loops(rng, k)
        }),
        // Up to 216 triples.
        3..=20 => [0; 3].map(|_| {
            let each = rng.range(1, 6);
            bundle(rng, 2, each)
        }),
        x => {
            let labels = rng.range(1, 2);
            let cycles = rng.chance(1, 3);
            let heaviest = if x < 28 { 600_000 } else { 9 };
            [0; 3].map(|_| {
                let states = rng.range(2, 4);
                let shape = Shape {
                    states,
                    arcs: rng.range(states, 2 * states + 3),
                    labels,
                    empty: [rng.pick(&[10, 30, 60]), rng.pick(&[10, 30, 60])],
                    cycles: cycles && rng.chance(1, 2),
                    heaviest,
                };
                draw(rng, &shape)
            })
        }
    };
    // Only the third table may have arcs for any symbol: 18.
    if rng.chance(1, 3) {
        for a in &mut tables[2].arcs {
            if rng.chance(1, 2) {
                a.input = 65_535;
                a.output = rng.pick(&[65_535, 65_535, a.output, 0]);
            }
        }
    }
    let strings = vec![along(rng, &tables[0]), (0..rng.below(4)).map(|_| rng.range(1, 2) as u16).collect()];
    (tables, strings)
}

/// What a random path reads, 65,535 where an arc is for any symbol.
pub fn along(rng: &mut Rng, t: &Table) -> Vec<u16> {
    let (leaving, mut state, mut read) = (t.leaving(), t.start, Vec::new());
    while !leaving[state].is_empty() && !rng.chance(1, 7) {
        let a = &t.arcs[rng.pick(&leaving[state])];
        read.extend(Some(a.input).filter(|&x| x != 0));
        state = a.target;
    }
    read.truncate(64);
    read
}
