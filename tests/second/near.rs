// Random tables near the limits: 1,024 states, 3,072 arcs, 99 paths.

use crate::cases::{along, bundles, given, label, large, line, loops, Case, Draft, Given};
use crate::rng::Rng;
use std::collections::HashSet;

/// The same table, state s being numbered order[s].
fn renumbered(d: &Draft, order: &[usize]) -> Draft {
    let new = |s: u16| order[s as usize];
    let finals: Vec<_> = d.finals.iter().map(|x| (new(x.0), x.1)).collect();
    let arcs: Vec<Given> = d.arcs.iter().map(|a| (new(a.0[0]), a.0[1], a.0[2], new(a.0[3]), a.1)).collect();
    Draft::new(order.len(), new(d.head[3]), &finals, &arcs)
}

fn shuffled(rng: &mut Rng, n: usize) -> Vec<usize> {
    let mut order: Vec<usize> = (0..n).collect();
    for i in (1..n).rev() {
        order.swap(i, rng.below(i + 1));
    }
    order
}

/// 0, n - 1, 1, n - 2, ..: a line in this order goes up and down in turn.
fn zigzag(n: usize) -> Vec<usize> {
    (0..n).map(|i| if i % 2 == 0 { i / 2 } else { n - 1 - i / 2 }).collect()
}

/// One state that hands the labels 1 to 4 on, so that a composition with it
/// has the states and arcs of its left side that are reached.
fn copies() -> Draft {
    let arcs: Vec<Given> = (1..=4).map(|x| (0, x, x, 0, 0)).collect();
    Draft::new(1, 0, &[(0, 0)], &arcs)
}

/// The states and arcs of a lattice before it is trimmed, whatever they are.
fn lattice_size(d: &Draft, code: &[u16]) -> (usize, usize) {
    let first = (0, d.head[3]);
    let (mut met, mut open, mut arcs) = (HashSet::from([first]), vec![first], 0);
    while let Some((place, state)) = open.pop() {
        for (a, _) in d.arcs.iter().filter(|a| a.0[0] == state) {
            if a[1] != 0 && code.get(place) != Some(&a[1]) {
                continue;
            }
            arcs += 1;
            let to = (place + usize::from(a[1] != 0), a[3]);
            if met.insert(to) {
                open.push(to);
            }
        }
    }
    (met.len(), arcs)
}

/// A table and a string whose lattice has, before it is trimmed, about 1,024
/// states or about 3,072 arcs or both, on either side. A random table is
/// brought there by a line of empty arcs in front of its start, each adding a
/// state and an arc, and by copies of those, each adding an arc.
fn aimed(rng: &mut Rng) -> (Draft, Vec<u16>) {
    loop {
        let (n, labels) = (rng.range(3, 40), rng.range(1, 2));
        let code: Vec<u16> = (0..rng.range(8, 64)).map(|_| rng.range(1, labels) as u16).collect();
        let (most, empty) = (rng.range(1, 5), rng.pick(&[5, 15, 30]));
        let mut arcs: Vec<Given> = Vec::new();
        for s in 0..n {
            for _ in 0..rng.range(1, most) {
                let w = rng.below(4) as i32;
                arcs.push((s, label(rng, labels, empty), rng.below(5) as u16, rng.below(n), w));
            }
        }
        let mut finals = vec![(rng.below(n), rng.below(9) as i32)];
        for _ in 0..rng.below(n) {
            finals.push((rng.below(n), rng.below(9) as i32));
        }
        let base = Draft::new(n, 0, &finals, &arcs);
        let (states, used) = lattice_size(&base, &code);
        // Either limit is aimed at alone, with room below the other, or both.
        let aim = rng.below(3);
        let wanted = if aim == 0 { rng.range(states.min(1_000), 1_024) } else { rng.range(1_022, 1_027) };
        let before = wanted.saturating_sub(states);
        let behind = rng.range(3_070, 3_075).saturating_sub(used + before);
        let again = if aim == 1 { 0 } else { behind };
        if before == 0 || n + before > 1_024 || (aim != 1 && again == 0) || arcs.len() + before + again > 3_072 {
            continue;
        }
        let step = |i: usize| if i + 1 < before { n + i + 1 } else { 0 };
        for i in 0..before {
            arcs.push((n + i, 0, 1, step(i), 1));
        }
        for _ in 0..again {
            let i = rng.below(before);
            arcs.push((n + i, 0, rng.below(5) as u16, step(i), rng.below(3) as i32));
        }
        let whole = Draft::new(n + before, n, &finals, &arcs);
        let order = if rng.chance(1, 2) { shuffled(rng, n + before) } else { (0..n + before).collect() };
        return (renumbered(&whole, &order), code);
    }
}

/// Random tables near the limits.
pub fn near_limit(rng: &mut Rng) -> Case {
    match rng.below(13) {
        0..=1 => {
            let (n, k) = (rng.range(20, 40), rng.range(20, 40));
            let (m, j) = (rng.range(60, 320), rng.range(60, 320));
            let labels = rng.range(3, 8);
            let l = large(rng, n, m, labels, 8);
            let r = large(rng, k, j, labels, 8);
            let code = along(rng, &l);
            given("dense pair", l, r, &code, None)
        }
        2 => {
            // Few states, many arcs.
            let (n, k) = (rng.range(1, 6), rng.range(1, 6));
            let (m, j) = (rng.range(80, 240), rng.range(80, 240));
            let l = large(rng, n, m, 6, 5);
            let r = large(rng, k, j, 6, 5);
            let code = along(rng, &l);
            given("many arcs", l, r, &code, None)
        }
        3 => {
            let n = rng.range(500, 520);
            let l = line(n, rng.range(0, 1) as u16, 0, 1);
            let r = loops(rng.range(1, 3), 0, 7, 0);
            given("line near 512", l, r, &vec![1; rng.range(0, 64)], None)
        }
        4 => {
            let (a, b) = (rng.range(40, 64), rng.range(40, 72));
            given("loops near 3,072", loops(a, 1, 2, 0), loops(b, 2, 3, 0), &[1], None)
        }
        5 => {
            let (n, m) = (rng.range(900, 1_024), rng.range(1_024, 3_072));
            let l = large(rng, n, m, 3, 5);
            let code = along(rng, &l);
            given("large table", l, loops(1, 1, 1, 0), &code, None)
        }
        6 => {
            let n = rng.range(900, 1_024);
            let mut d = line(n, 0, 1, rng.below(3) as i32);
            for _ in 0..rng.below(4) {
                let like = rng.pick(&d.arcs);
                d.arcs.push(([rng.below(n) as u16, rng.below(2) as u16, like.0[2], like.0[3]], like.1));
            }
            let order = if rng.chance(1, 2) { zigzag(n) } else { shuffled(rng, n) };
            given("line renumbered", renumbered(&d, &order), copies(), &vec![1; rng.below(3)], None)
        }
        7..=11 => {
            let (d, code) = aimed(rng);
            given("lattice at the limits", d, copies(), &code, None)
        }
        _ => {
            let sizes: Vec<usize> = (0..rng.range(1, 7)).map(|_| rng.range(1, 4)).collect();
            let code = vec![1; sizes.len()];
            given("bundles near 99", bundles(&sizes, 1, 2), loops(1, 2, 2, 0), &code, None)
        }
    }
}
