// Generators of tables, damaged tables, strings and pairs.
#![allow(dead_code)]

use crate::near::near_limit;
use crate::rng::Rng;

/// A table before it is written out. Records are kept apart from the head so
/// that both can be damaged.
#[derive(Clone, Debug)]
pub struct Draft {
    pub head: [u16; 4],
    pub finals: Vec<(u16, i32)>,
    pub arcs: Vec<([u16; 4], i32)>,
}

/// Length field, kind, body.
pub type Record = (u16, u16, Vec<u8>);

pub struct Case {
    pub name: String,
    pub left: Vec<u8>,
    pub right: Vec<u8>,
    pub code: Vec<u16>,
    /// The refusal of the left table, where the generator knows it.
    pub left_refusal: Option<u32>,
    /// What composing the pair answers, where the generator knows it.
    pub join_refusal: Option<u32>,
}

impl Draft {
    /// Arcs are given as (source, input, output, target, weight), any order.
    pub fn new(n: usize, start: usize, finals: &[(usize, i32)], arcs: &[Given]) -> Draft {
        let mut arcs: Vec<_> = arcs
            .iter()
            .map(|a| ([a.0 as u16, a.1, a.2, a.3 as u16], a.4))
            .collect();
        arcs.sort_by_key(|a| a.0[0]);
        let mut finals: Vec<_> = finals.iter().map(|x| (x.0 as u16, x.1)).collect();
        finals.sort();
        finals.dedup_by_key(|x| x.0);
        let head = [n as u16, arcs.len() as u16, finals.len() as u16, start as u16];
        Draft { head, finals, arcs }
    }

    pub fn records(&self) -> Vec<Record> {
        let two = |xs: &[u16]| xs.iter().flat_map(|x| x.to_le_bytes()).collect::<Vec<u8>>();
        let mut out = vec![(8, 1, two(&self.head))];
        for (state, weight) in &self.finals {
            out.push((6, 2, [two(&[*state]), weight.to_le_bytes().to_vec()].concat()));
        }
        for (fields, weight) in &self.arcs {
            out.push((12, 3, [two(fields), weight.to_le_bytes().to_vec()].concat()));
        }
        out
    }

    pub fn bytes(&self) -> Vec<u8> {
        join_records(&self.records())
    }
}

pub type Given = (usize, u16, u16, usize, i32);

pub fn join_records(records: &[Record]) -> Vec<u8> {
    let mut out = Vec::new();
    for (length, kind, body) in records {
        out.extend(length.to_le_bytes());
        out.extend(kind.to_le_bytes());
        out.extend(body);
    }
    out
}

// -------------------------------------------------------- small tables

/// What weights a table has.
#[derive(Clone, Copy, PartialEq)]
enum Signs {
    /// None below zero.
    Plain,
    /// Some below zero, by amounts that cancel out around every ring: each
    /// state has one, which arcs to it lose and arcs from it gain.
    Shifted,
    /// Any.
    Both,
}

fn signs(rng: &mut Rng) -> Signs {
    rng.pick(&[Signs::Plain, Signs::Plain, Signs::Shifted, Signs::Shifted, Signs::Both])
}

fn weight(rng: &mut Rng, signs: Signs) -> i32 {
    let size = match rng.below(40) {
        0 => 1_000_000,
        1 => 999_999,
        2 => 500_000,
        3 => 500_001,
        4..=20 => rng.below(3) as i32,
        _ => rng.below(8) as i32,
    };
    let below = signs == Signs::Both && rng.chance(2, 5);
    if below { -size } else { size }
}

/// Puts weights below zero into a table without changing what a ring sums to;
/// every accepting path costs the start's amount more than before.
fn shift(rng: &mut Rng, d: &mut Draft) {
    let most = rng.pick(&[2, 9, 250_000, 500_000]);
    let amounts: Vec<i32> = (0..d.head[0]).map(|_| rng.range(0, 2 * most) as i32 - most as i32).collect();
    let of = |s: u16| amounts[s as usize];
    let within = |w: i32| (-1_000_000..=1_000_000).contains(&w);
    let mut moved = d.clone();
    for (fields, w) in &mut moved.arcs {
        *w += of(fields[0]) - of(fields[3]);
    }
    for (state, w) in &mut moved.finals {
        *w += of(*state);
    }
    // Where some weight would leave the range, all stay.
    if moved.arcs.iter().all(|a| within(a.1)) && moved.finals.iter().all(|x| within(x.1)) {
        *d = moved;
    }
}

pub fn label(rng: &mut Rng, labels: usize, empty: usize) -> u16 {
    match rng.below(100) {
        x if x < empty => 0,
        99 => rng.pick(&[255, 256, 65_533, 65_534]),
        _ => 1 + rng.below(labels) as u16,
    }
}

/// A random table of 1 to `most` states with many epsilons and few labels.
pub fn small(rng: &mut Rng, most: usize, max_arcs: usize) -> Draft {
    let n = rng.range(1, most);
    let start = if rng.chance(2, 3) { 0 } else { rng.below(n) };
    let labels = rng.range(1, 3);
    let empty = rng.pick(&[10, 30, 50, 80]);
    // Going up only makes a table without rings.
    let upward = rng.chance(3, 5);
    let plain = rng.chance(1, 3);
    let signs = signs(rng);
    let mut arcs: Vec<Given> = Vec::new();
    for _ in 0..rng.below(max_arcs + 1) {
        if !arcs.is_empty() && rng.chance(1, 8) {
            let like = rng.pick(&arcs);
            arcs.push(like);
            continue;
        }
        let (mut s, mut t) = (rng.below(n), rng.below(n));
        if upward {
            if n == 1 {
                break;
            }
            if s == t {
                t = (s + 1) % n;
            }
            if s > t {
                std::mem::swap(&mut s, &mut t);
            }
        }
        let w = if plain { 0 } else { weight(rng, signs) };
        arcs.push((s, label(rng, labels, empty), label(rng, labels, empty), t, w));
    }
    let some = rng.pick(&[1, 2, 2, 3, 6]);
    let finals: Vec<_> = (0..n).filter(|_| rng.chance(1, some)).collect();
    let finals: Vec<_> = finals.into_iter().map(|s| (s, weight(rng, signs))).collect();
    let mut d = Draft::new(n, start, &finals, &arcs);
    if signs == Signs::Shifted {
        shift(rng, &mut d);
    }
    d
}

/// Makes some arcs arcs for any symbol, which pass it on, write a symbol of
/// their own, or write nothing. One table in `seldom` gets such arcs.
pub fn with_any(rng: &mut Rng, d: &mut Draft, seldom: usize) {
    if !rng.chance(1, seldom) {
        return;
    }
    let often = rng.pick(&[1, 2, 4]);
    for a in &mut d.arcs {
        if rng.chance(1, often) {
            a.0[1] = 65_535;
            a.0[2] = rng.pick(&[65_535, 65_535, 0, a.0[2], a.0[2], 65_534]);
        }
    }
}

/// A ring of states with a few arcs beside it; it may lie off every
/// accepting path. It sums to zero, or to one more or less, or to anything.
pub fn ring(rng: &mut Rng) -> Draft {
    let n = rng.range(1, 6);
    let size = rng.range(1, n);
    let from = rng.below(n - size + 1);
    let empty = rng.pick(&[30, 100]);
    let signs = signs(rng);
    let mut weights: Vec<i32> = (0..size).map(|_| weight(rng, signs).clamp(-9, 9)).collect();
    if rng.chance(2, 3) {
        let rest: i32 = weights[1..].iter().sum();
        weights[0] = rng.pick(&[0, 0, 1, -1]) - rest;
    }
    let mut arcs: Vec<Given> = Vec::new();
    for (i, &w) in weights.iter().enumerate() {
        let to = from + (i + 1) % size;
        arcs.push((from + i, label(rng, 2, empty), label(rng, 2, 50), to, w));
    }
    for _ in 0..rng.below(5) {
        let w = weight(rng, signs);
        arcs.push((rng.below(n), label(rng, 2, 30), label(rng, 2, 30), rng.below(n), w));
    }
    // Arcs of one source come in any order.
    for i in (1..arcs.len()).rev() {
        let j = rng.below(i + 1);
        arcs.swap(i, j);
    }
    let mut finals = Vec::new();
    for s in 0..n {
        if rng.chance(1, 3) {
            finals.push((s, weight(rng, signs)));
        }
    }
    let mut d = Draft::new(n, rng.below(n), &finals, &arcs);
    if signs == Signs::Shifted {
        shift(rng, &mut d);
    }
    d
}

/// A line that copies a string, with corrections beside it.
fn corrections(rng: &mut Rng) -> (Draft, Draft, Vec<u16>) {
    let length = rng.range(1, 5);
    let code: Vec<u16> = (0..length).map(|_| rng.range(1, 3) as u16).collect();
    let mut left: Vec<Given> = Vec::new();
    for s in 0..2 {
        for x in 1..=3 {
            left.push((s, x, x, s, 0));
        }
        if s == 0 {
            left.push((0, rng.range(1, 3) as u16, rng.range(0, 3) as u16, 1, 2));
            left.push((0, 0, rng.range(1, 3) as u16, 1, 3));
        }
    }
    let mut right: Vec<Given> = Vec::new();
    let n = length + 2;
    for s in 0..n - 1 {
        for _ in 0..rng.range(1, 2) {
            let x = if s < length { code[s] } else { rng.range(0, 3) as u16 };
            right.push((s, x, rng.range(0, 4) as u16, s + 1, rng.below(3) as i32));
        }
    }
    let left = Draft::new(2, 0, &[(0, 0), (1, 1)], &left);
    let right = Draft::new(n, 0, &[(length, 0), (n - 1, 1)], &right);
    (left, right, code)
}

/// A left table with arcs for any symbol, which composing refuses and the
/// cascade takes, and a string along one of its paths.
fn any_first(rng: &mut Rng) -> (Draft, Draft, Vec<u16>) {
    let mut left = if rng.chance(1, 4) { ring(rng) } else { small(rng, 5, 9) };
    with_any(rng, &mut left, 1);
    let code = string(rng, &left);
    let mut right = small(rng, 4, 9);
    with_any(rng, &mut right, 3);
    (left, right, code)
}

/// A pair with at least one reading: a random path of the left table is
/// made accepting, and the right table gets a path that reads its output.
fn matched(rng: &mut Rng) -> (Draft, Draft, Vec<u16>) {
    let most = rng.range(2, 5);
    let mut left = small(rng, most, 9);
    let (mut code, mut middle) = (Vec::new(), Vec::new());
    let mut state = left.head[3];
    for _ in 0..rng.below(7) {
        let next: Vec<_> = left.arcs.iter().filter(|a| a.0[0] == state).collect();
        if next.is_empty() {
            break;
        }
        let fields = next[rng.below(next.len())].0;
        code.extend(Some(fields[1]).filter(|&x| x != 0));
        middle.extend(Some(fields[2]).filter(|&x| x != 0));
        state = fields[3];
    }
    left.finals.retain(|x| x.0 != state);
    left.finals.push((state, rng.below(4) as i32));
    left.finals.sort();
    left.head[2] = left.finals.len() as u16;

    let mut arcs: Vec<Given> = Vec::new();
    let n = rng.range(1, 5);
    let mut state = rng.below(n);
    let start = state;
    let last = middle.len();
    for i in 0..=last {
        if rng.chance(1, 3) {
            let to = if rng.chance(3, 4) { (state + 1) % n } else { rng.below(n) };
            arcs.push((state, 0, label(rng, 3, 30), to, rng.below(3) as i32));
            state = to;
        }
        if i < last {
            let to = if rng.chance(3, 4) { (state + 1) % n } else { rng.below(n) };
            for _ in 0..rng.pick(&[1, 1, 1, 2, 3]) {
                arcs.push((state, middle[i], label(rng, 3, 30), to, rng.below(3) as i32));
            }
            state = to;
        }
    }
    let mut finals = vec![(state, rng.below(3) as i32)];
    if rng.chance(1, 3) {
        finals.push((rng.below(n), 1));
    }
    (left, Draft::new(n, start, &finals, &arcs), code)
}

// ------------------------------------------------------ special tables

pub fn line(n: usize, input: u16, output: u16, w: i32) -> Draft {
    let arcs: Vec<Given> = (1..n).map(|s| (s - 1, input, output, s, w)).collect();
    Draft::new(n, 0, &[(n - 1, 0)], &arcs)
}

/// The same line with its states numbered from the end.
pub fn line_down(n: usize, input: u16, output: u16, w: i32) -> Draft {
    let arcs: Vec<Given> = (1..n).map(|s| (s, input, output, s - 1, w)).collect();
    Draft::new(n, n - 1, &[(0, 1)], &arcs)
}

/// 98 paths of 1,023 arcs that read nothing, of the least weights, each arc
/// writing a label of five digits: no listing is longer than theirs.
pub fn longest() -> Draft {
    let mut arcs = vec![(0, 0, 65_534, 1, -1_000_000); 98];
    arcs.extend((1..1_023).map(|s| (s, 0, 65_534, s + 1, -1_000_000)));
    Draft::new(1_024, 0, &[(1_023, -1_000_000)], &arcs)
}

pub fn loops(count: usize, input: u16, output: u16, w: i32) -> Draft {
    let arcs = vec![(0, input, output, 0, w); count];
    Draft::new(1, 0, &[(0, 0)], &arcs)
}

pub fn like_arcs(count: usize, input: u16, output: u16, w: i32) -> Draft {
    let arcs = vec![(0, input, output, 1, w); count];
    Draft::new(2, 0, &[(1, 0)], &arcs)
}

pub fn one_arc(input: u16, output: u16, w: i32, last: i32) -> Draft {
    Draft::new(2, 0, &[(1, last)], &[(0, input, output, 1, w)])
}

/// Bundles of like arcs one after the other: counts multiply.
pub fn bundles(sizes: &[usize], input: u16, output: u16) -> Draft {
    let mut arcs: Vec<Given> = Vec::new();
    for (s, &size) in sizes.iter().enumerate() {
        for i in 0..size {
            arcs.push((s, input, output, s + 1, i as i32 % 3));
        }
    }
    Draft::new(sizes.len() + 1, 0, &[(sizes.len(), 7)], &arcs)
}

/// A large random table of n states and m arcs.
pub fn large(rng: &mut Rng, n: usize, m: usize, labels: usize, empty: usize) -> Draft {
    let upward = rng.chance(1, 2) && n > 1;
    // With weights below zero, rings below zero are everywhere.
    let below = rng.pick(&[0, 0, 1]);
    let mut arcs: Vec<Given> = Vec::new();
    for i in 0..m {
        // A line through all states first, so that they are reached.
        let (s, t) = if i + 1 < n {
            (i, i + 1)
        } else if upward {
            let s = rng.below(n - 1);
            (s, s + 1 + rng.below(n - 1 - s))
        } else {
            (rng.below(n), rng.below(n))
        };
        let w = rng.below(4) as i32 - below;
        arcs.push((s, label(rng, labels, empty), label(rng, labels, empty), t, w));
    }
    let mut finals = vec![(n - 1, 3)];
    for _ in 0..rng.below(4) {
        finals.push((rng.below(n), rng.below(9) as i32));
    }
    let mut d = Draft::new(n, 0, &finals, &arcs);
    if rng.chance(1, 2) {
        shift(rng, &mut d);
    }
    d
}

/// A table whose lattice for the code 1 has the wanted number of states:
/// an epsilon line of `n`, then one arc back into it.
fn reaching(n: usize, lattice_states: usize) -> Draft {
    let mut arcs: Vec<Given> = (1..n).map(|s| (s - 1, 0, 4, s, 0)).collect();
    arcs.push((n - 1, 1, 5, n - (lattice_states - n), 0));
    Draft::new(n, 0, &[(n - 1, 0)], &arcs)
}

// ------------------------------------------------------------- damage

/// Damages a table so that it meets the refusal aimed at. The draft needs
/// at least two finals and two arcs from different states.
pub fn damage(rng: &mut Rng, d: &mut Draft, aim: u32) {
    let n = d.head[0];
    let f = rng.below(d.finals.len());
    let a = rng.below(d.arcs.len());
    match aim {
        3 => match rng.below(5) {
            0 => d.head[0] = 0,
            1 => d.head[0] = rng.pick(&[1_025, 1_026, 65_535]),
            2 => d.head[1] = rng.pick(&[3_073, 65_535]),
            3 => d.head[2] = rng.pick(&[n.wrapping_add(1), 65_535]),
            _ => d.head[3] = rng.pick(&[n, n.wrapping_add(1), 65_535]),
        },
        4 => match rng.below(6) {
            0 => d.head[1] = d.head[1].wrapping_add(1),
            1 => d.head[1] = d.head[1].wrapping_sub(1),
            2 => d.head[2] = d.head[2].wrapping_sub(1),
            3 => {
                d.finals.remove(f);
            }
            4 => {
                d.arcs.remove(a);
            }
            _ => {
                let like = d.arcs[a];
                d.arcs.insert(a, like);
            }
        },
        5 => {
            let bad = rng.pick(&[n, n, n.wrapping_add(1), 1_024, 65_535]).max(n);
            match rng.below(3) {
                0 => d.finals[f].0 = bad,
                1 => d.arcs[a].0[0] = bad,
                _ => d.arcs[a].0[3] = bad,
            }
        }
        6 => match rng.below(3) {
            0 => d.finals[1].0 = d.finals[0].0,
            1 => {
                let last = d.finals.len() - 1;
                d.finals.swap(0, last);
            }
            _ => {
                let last = d.arcs.len() - 1;
                d.arcs.swap(0, last);
            }
        },
        7 => {
            let fields = &mut d.arcs[a].0;
            if fields[1] == 65_535 {
                fields[1] = rng.below(3) as u16;
            }
            fields[2] = 65_535;
        }
        8 => {
            let bad = rng.pick(&[1_000_001, 1_000_001, -1_000_001, -1_000_001, 0x0100_0000, i32::MAX, i32::MIN]);
            if rng.chance(1, 2) {
                d.finals[f].1 = bad;
            } else {
                d.arcs[a].1 = bad;
            }
        }
        _ => {}
    }
}

/// Damages of the records themselves: refusals 1 and 2.
pub fn damage_records(rng: &mut Rng, records: &mut Vec<Record>, aim: u32) {
    let at = rng.below(records.len());
    let last = records.len() - 1;
    match (aim, rng.below(10)) {
        (1, _) if records[last].2.is_empty() => records[last].0 = 1,
        (1, 0..=4) => {
            let rest = rng.below(records[last].2.len().max(1));
            records[last].2.truncate(rest);
        }
        (1, 5..=7) => records[last].0 = records[last].0.saturating_add(rng.range(1, 300) as u16),
        (1, _) => records[last].0 = 65_535,
        (2, 0) => records[at].1 = rng.pick(&[0, 4, 256, 257, 512, 65_535]),
        (2, 1) => {
            // A body longer than its kind has, told rightly.
            let more = rng.range(1, 4);
            records[at].2.extend(vec![0; more]);
            records[at].0 += more as u16;
        }
        (2, 2) => {
            let rest = rng.below(records[at].2.len().max(1));
            records[at].2.truncate(rest);
            records[at].0 = rest as u16;
        }
        (2, 3) => {
            // An arc before a final.
            let arc = records.remove(last);
            records.insert(1, arc);
        }
        (2, 4) => {
            let head = records[0].clone();
            records.insert(rng.range(1, last + 1), head);
        }
        (2, 5) => {
            records.remove(0);
        }
        (2, 6) => records.clear(),
        (2, 7) => {
            let final_state = records[1].clone();
            records.push(final_state);
        }
        (2, 8) => records.swap(0, last),
        (2, _) => records.push((0, 0, vec![])),
        _ => {}
    }
}

/// Bytes damaged without an aim.
pub fn damage_bytes(rng: &mut Rng, bytes: &mut Vec<u8>) {
    match rng.below(6) {
        0 if !bytes.is_empty() => {
            let at = rng.below(bytes.len());
            bytes[at] ^= 1 << rng.below(8);
        }
        1 if !bytes.is_empty() => {
            let at = rng.below(bytes.len());
            bytes[at] = rng.pick(&[0, 1, 2, 3, 6, 8, 12, 255]);
        }
        2 => bytes.truncate(rng.below(bytes.len() + 1)),
        3 => {
            for _ in 0..rng.range(1, 4) {
                bytes.push(rng.next() as u8);
            }
        }
        4 => bytes.extend(vec![0; rng.range(1, 4)]),
        _ if bytes.len() >= 2 => {
            let (a, b) = (rng.below(bytes.len()), rng.below(bytes.len()));
            bytes.swap(a, b);
        }
        _ => bytes.clear(),
    }
}

/// A small table with at least two finals and two arcs of different sources.
fn damageable(rng: &mut Rng) -> Draft {
    loop {
        let d = small(rng, 6, 10);
        let apart = d.arcs.len() > 1 && d.arcs[0].0[0] != d.arcs[d.arcs.len() - 1].0[0];
        if d.finals.len() > 1 && apart {
            return d;
        }
    }
}

/// A table damaged twice, or once where a is b. Later refusals are aimed at
/// first, so that the earlier damage is not undone; the least one is left.
fn damaged_twice(rng: &mut Rng, a: u32, b: u32) -> (Vec<u8>, u32) {
    let mut d = damageable(rng);
    let aims = if a == b { vec![a] } else { vec![a.max(b), a.min(b)] };
    for &aim in &aims {
        damage(rng, &mut d, aim);
    }
    let mut records = d.records();
    for &aim in &aims {
        if !records.is_empty() {
            damage_records(rng, &mut records, aim);
        }
    }
    let least = if records.is_empty() { 2 } else { a.min(b) };
    (join_records(&records), least)
}

/// A damaged table; its refusal where one damage alone was done.
pub fn damaged(rng: &mut Rng) -> (Vec<u8>, Option<u32>) {
    let mut d = damageable(rng);
    let how_many = rng.pick(&[1, 1, 2, 2, 3]);
    let mut aims: Vec<u32> = (0..how_many).map(|_| rng.range(1, 8) as u32).collect();
    let one = how_many == 1;
    let blind = rng.chance(1, 4);
    for &aim in &aims {
        if aim >= 3 && !d.finals.is_empty() && !d.arcs.is_empty() {
            // Two damages may have taken records away.
            if d.finals.len() > 1 || aim != 6 {
                damage(rng, &mut d, aim);
            }
        }
    }
    let mut records = d.records();
    aims.sort_by(|a, b| b.cmp(a));
    for &aim in &aims {
        if aim < 3 && records.len() > 2 {
            damage_records(rng, &mut records, aim);
        }
    }
    let mut bytes = join_records(&records);
    if blind {
        damage_bytes(rng, &mut bytes);
    }
    let known = if one && !blind { Some(aims[0]) } else { None };
    (bytes, known)
}

// -------------------------------------------------------------- strings

/// The input labels along a random path: a string with good chances.
pub fn along(rng: &mut Rng, d: &Draft) -> Vec<u16> {
    let mut state = d.head[3];
    let mut out = Vec::new();
    for _ in 0..rng.below(9) {
        let next: Vec<_> = d.arcs.iter().filter(|a| a.0[0] == state).collect();
        if next.is_empty() || out.len() == 64 {
            break;
        }
        let a = next[rng.below(next.len())];
        match a.0[1] {
            0 => (),
            65_535 => out.push(rng.pick(&[1, 2, 3, 9, 65_534])),
            symbol => out.push(symbol),
        }
        state = a.0[3];
    }
    out
}

pub fn string(rng: &mut Rng, d: &Draft) -> Vec<u16> {
    match rng.below(40) {
        0 => vec![1; 64],
        1 => vec![1; 65],
        2 => vec![rng.range(1, 2) as u16; rng.range(60, 70)],
        3 => {
            let mut x = along(rng, d);
            x.insert(rng.below(x.len() + 1), 0);
            x
        }
        4 => {
            let mut x = along(rng, d);
            x.insert(rng.below(x.len() + 1), 65_535);
            x
        }
        5 => vec![65_534; rng.range(1, 3)],
        6..=9 => vec![],
        10..=14 => (0..rng.below(5)).map(|_| rng.range(1, 3) as u16).collect(),
        _ => along(rng, d),
    }
}

// ---------------------------------------------------------------- cases

pub fn given(name: &str, left: Draft, right: Draft, code: &[u16], join: Option<u32>) -> Case {
    Case {
        name: name.to_string(),
        left: left.bytes(),
        right: right.bytes(),
        code: code.to_vec(),
        left_refusal: Some(0),
        join_refusal: join,
    }
}

fn raw(name: &str, left: Vec<u8>, refusal: u32) -> Case {
    let right = one_arc(1, 2, 0, 0).bytes();
    Case {
        name: name.to_string(),
        left,
        right,
        code: vec![1],
        left_refusal: Some(refusal),
        join_refusal: Some(refusal),
    }
}

/// The worked pair of the paper.
pub fn worked() -> (Draft, Draft) {
    let left = Draft::new(3, 0, &[(2, 0)], &[(0, 1, 2, 1, 3), (1, 3, 0, 2, 1)]);
    let right = Draft::new(3, 0, &[(2, 1)], &[(0, 2, 4, 1, 2), (1, 0, 5, 2, 4)]);
    (left, right)
}

/// The cases of the paper and others on either side of a limit.
pub fn fixed() -> Vec<Case> {
    let ok = Some(0);
    let copy = || loops(1, 2, 2, 0);
    let mut out = vec![
        raw("no bytes", vec![], 2),
        raw("three bytes", vec![8, 0, 1], 1),
        raw("weight 1,000,000", one_arc(1, 2, 1_000_000, 0).bytes(), 0),
        raw("weight 1,000,001", one_arc(1, 2, 1_000_001, 0).bytes(), 8),
        raw("final weight 1,000,001", one_arc(1, 2, 0, 1_000_001).bytes(), 8),
        raw("weight -1", one_arc(1, 2, -1, -1).bytes(), 0),
        raw("weight -1,000,000", one_arc(1, 2, -1_000_000, 0).bytes(), 0),
        raw("weight -1,000,001", one_arc(1, 2, -1_000_001, 0).bytes(), 8),
        raw("final weight -1,000,000", one_arc(1, 2, 0, -1_000_000).bytes(), 0),
        raw("final weight -1,000,001", one_arc(1, 2, 0, -1_000_001).bytes(), 8),
        raw("weight -2^31", one_arc(1, 2, i32::MIN, 0).bytes(), 8),
        raw("final weight 2^31 - 1", one_arc(1, 2, 0, i32::MAX).bytes(), 8),
        raw("label 65,534", one_arc(65_534, 2, 0, 0).bytes(), 0),
        raw("output 65,535 beside a symbol", one_arc(1, 65_535, 0, 0).bytes(), 7),
        raw("output 65,535 beside nothing", one_arc(0, 65_535, 0, 0).bytes(), 7),
    ];
    let mut rng = Rng::new(1, 1);
    for a in 1..=8 {
        for b in a..=8 {
            let (bytes, least) = damaged_twice(&mut rng, a, b);
            out.push(raw(&format!("damages {a} and {b}"), bytes, least));
        }
    }
    let (l, r) = worked();
    let first = l.records();
    let with = |more: &[Record]| join_records(&[&first[..], more].concat());
    out.push(raw("second head behind", with(&first[..1]), 2));
    out.push(raw("second head in front", [join_records(&first[..1]), l.bytes()].concat(), 2));
    out.push(raw("final behind arcs", with(&r.records()[1..2]), 2));
    out.push(raw("last arc missing", join_records(&first[..3]), 4));
    out.push(raw("kind 4", with(&[(0, 4, vec![])]), 2));
    out.push(raw("kind 4, then a cut head", [with(&[(0, 4, vec![])]), vec![8]].concat(), 1));
    out.push(raw("four zero bytes behind", with(&[(0, 0, vec![])]), 2));
    for sign in [1, -1] {
        let heavy = |w: i32, v: i32| (one_arc(1, 2, sign * 600_000, sign * w), one_arc(2, 3, sign * v, sign * 600_000));
        for (w, v, answer) in [
            (400_000, 400_000, 0),
            (400_000, 400_001, 13),
            (400_001, 400_000, 13),
            (400_001, 400_001, 13),
            (-1_000_000, -1_000_000, 0),
        ] {
            let (l, r) = heavy(w, v);
            out.push(given("sums at the weight limits", l, r, &[1], Some(answer)));
        }
        let ends = one_arc(1, 2, sign * 1_000_000, sign * 1_000_000);
        let against = one_arc(2, 3, -sign * 1_000_000, -sign * 1_000_000);
        out.push(given("sums of both ends", ends.clone(), against, &[1], ok));
        out.push(given("sums of one end", ends, one_arc(2, 3, sign * 1_000_000, 0), &[1], Some(13)));
    }
    // The arc of one side alone, at its end and beside the other side's.
    for w in [-1_000_000, -1, 0, 1_000_000] {
        let l = Draft::new(2, 0, &[(1, 0)], &[(0, 1, 0, 1, w)]);
        let r = Draft::new(2, 0, &[(1, w)], &[(0, 0, 3, 1, -w)]);
        out.push(given("steps of one side", l, r, &[1], ok));
    }
    for n in [97, 98, 99, 100, 101] {
        out.push(given("like arcs", like_arcs(n, 1, 2, 5), copy(), &[1], ok));
    }
    for sizes in [[7, 14, 1], [9, 11, 1], [3, 3, 11], [10, 10, 1], [97, 1, 1]] {
        out.push(given("bundles", bundles(&sizes, 1, 2), copy(), &[1, 1, 1], ok));
    }
    for (n, answer) in [(511, 0), (512, 0), (513, 11)] {
        out.push(given("line against 0:7", line(n, 1, 0, 0), loops(1, 0, 7, 0), &[1; 64], Some(answer)));
    }
    // An epsilon ring on the right gives one triple more than its states.
    for (n, answer) in [(1_023, 0), (1_024, 11)] {
        let ring: Vec<Given> = (0..n).map(|s| (s, 0, 7, (s + 1) % n, 0)).collect();
        let right = Draft::new(n, 0, &[(n - 1, 0)], &ring);
        out.push(given("epsilon ring on the right", loops(1, 1, 2, 0), right, &[], Some(answer)));
    }
    for (l, r, answer) in [(48, 64, 0), (56, 55, 12), (1, 3_072, 0), (7, 439, 12), (3_072, 1, 0)] {
        out.push(given("loops", loops(l, 1, 2, 0), loops(r, 2, 3, 0), &[1], Some(answer)));
    }
    // 12 comes before 13, and 11 before both.
    out.push(given("12 and 13", loops(56, 1, 2, 600_000), loops(55, 2, 3, 600_000), &[1], Some(12)));
    let mut many = line(513, 1, 0, 0);
    let mut arcs: Vec<Given> = many
        .arcs
        .iter()
        .map(|a| (a.0[0] as usize, a.0[1], a.0[2], a.0[3] as usize, a.1))
        .collect();
    arcs.extend(vec![(0, 1, 2, 0, 700_000); 80]);
    many = Draft::new(513, 0, &[(0, 900_000)], &arcs);
    let mut both: Vec<Given> = vec![(0, 2, 3, 0, 700_000); 80];
    both.push((0, 0, 7, 0, 0));
    let both = Draft::new(1, 0, &[(0, 900_000)], &both);
    out.push(given("11, 12 and 13", many, both, &[1], Some(11)));
    // Final sums over the limit on a state that is reached, and on one not.
    let two_finals = |reached: bool| {
        let to = if reached { 1 } else { 0 };
        Draft::new(2, 0, &[(0, 0), (1, 900_000)], &[(0, 1, 2, to, 0)])
    };
    let last = Draft::new(1, 0, &[(0, 100_001)], &[(0, 2, 3, 0, 0)]);
    out.push(given("final sum reached", two_finals(true), last.clone(), &[1], Some(13)));
    out.push(given("final sum not reached", two_finals(false), last, &[1], ok));
    for w in [2, 0, -1] {
        let right = Draft::new(1, 0, &[(0, 0)], &[]);
        out.push(given("loop 0:7", loops(1, 0, 7, w), right, &[], ok));
    }
    out.extend(rings_below_zero());
    out.push(given("arc twice", like_arcs(2, 1, 2, 5), copy(), &[1], ok));
    let (l, r) = worked();
    out.push(given("worked pair", l, r, &[1, 3], ok));
    // A right step, then a step of both, then a left step.
    let l = Draft::new(3, 0, &[(2, 0)], &[(0, 1, 2, 1, 0), (1, 1, 0, 2, 0)]);
    let r = Draft::new(3, 0, &[(2, 0)], &[(0, 0, 4, 1, 0), (1, 2, 5, 2, 0)]);
    out.push(given("mark put back", l, r, &[1, 1], ok));
    // A ring that is reached but leads nowhere, and one nothing leads to.
    let d = Draft::new(
        4,
        0,
        &[(1, 0)],
        &[(0, 1, 2, 1, 0), (0, 0, 0, 2, 0), (2, 0, 0, 2, 0), (3, 0, 0, 3, 0), (3, 0, 0, 1, 0)],
    );
    out.push(given("rings off every accepting path", d, copy(), &[1], ok));
    // Equal cost: fewer arcs against earlier arcs.
    let d = Draft::new(
        3,
        0,
        &[(1, 0)],
        &[(0, 1, 2, 2, 1), (0, 1, 2, 1, 2), (0, 1, 2, 1, 2), (2, 0, 2, 1, 1)],
    );
    out.push(given("ties", d, copy(), &[1], ok));
    // Equal cost: fewer labels against fewer arcs.
    let d = Draft::new(3, 0, &[(2, 0)], &[(0, 1, 2, 2, 5), (0, 1, 0, 1, 2), (1, 0, 0, 2, 3)]);
    out.push(given("ties, fewer labels", d, copy(), &[1], ok));
    // Equal cost and labels: fewer arcs against earlier arcs.
    let d = Draft::new(3, 0, &[(2, 0)], &[(0, 1, 0, 1, 2), (0, 1, 2, 2, 5), (1, 0, 2, 2, 3)]);
    out.push(given("ties, fewer arcs", d, copy(), &[1], ok));
    // Equal in all three: earlier arcs.
    let d = Draft::new(4, 0, &[(3, 0)], &[(0, 1, 2, 1, 2), (0, 1, 0, 2, 2), (1, 0, 0, 3, 3), (2, 0, 2, 3, 3)]);
    out.push(given("ties, earlier arcs", d, copy(), &[1], ok));
    // A silent ring of cost 0 on the way, and one that saves a label.
    let d = Draft::new(3, 0, &[(2, 0)], &[(0, 0, 0, 1, 0), (1, 0, 0, 0, 0), (1, 1, 2, 2, 3)]);
    out.push(given("silent ring", d, copy(), &[1], ok));
    let d = Draft::new(3, 0, &[(2, 0)], &[(0, 1, 2, 2, 0), (0, 0, 0, 1, 0), (1, 0, 0, 0, 0), (1, 1, 0, 2, 0)]);
    out.push(given("silent ring, fewer labels", d, copy(), &[1], ok));
    out.push(given("1,024 states up", line(1_024, 1, 2, 1_000), copy(), &[1; 64], ok));
    out.push(given("1,024 states down", line_down(1_024, 1, 2, 1_000_000), loops(1, 2, 0, 0), &[1; 64], ok));
    let mut ring: Vec<Given> = (0..1_024).map(|s| (s, 0, 2, (s + 1) % 1_024, 1)).collect();
    out.push(given("ring of 1,024", Draft::new(1_024, 0, &[(1_023, 0)], &ring), copy(), &[], ok));
    ring.extend(vec![(5, 0, 3, 6, 0); 2_048]);
    let all: Vec<_> = (0..1_024).map(|s| (s, 1)).collect();
    out.push(given("largest table", Draft::new(1_024, 1_023, &all, &ring), copy(), &[], ok));
    // Lattices of exactly 1,024 states and one more.
    for (n, states) in [(600, 1_024), (600, 1_025), (1_000, 1_024), (1_000, 1_025)] {
        out.push(given("lattice states", reaching(n, states), loops(2, 4, 4, 0), &[1], None));
    }
    let grid: Vec<Given> = (0..16)
        .flat_map(|s| [(s, 1, 3, s, 0), (s, 0, 0, (s + 1) % 16, 1)])
        .collect();
    for length in [62, 63, 64] {
        let d = Draft::new(16, 0, &[(15, 0)], &grid);
        out.push(given("lattice grid", d, loops(1, 3, 3, 0), &vec![1; length], None));
    }
    // Lattices of 3,072 and 3,073 arcs.
    for read in [2, 3] {
        let mut arcs: Vec<Given> = vec![(0, 0, 4, 0, 0); 1_535];
        arcs.extend(vec![(0, 1, 5, 0, 0); read]);
        out.push(given("lattice arcs", Draft::new(1, 0, &[(0, 0)], &arcs), copy(), &[1], None));
    }
    // Both 11 and 12: one more than 64 places of 16 states, many arcs each.
    let mut arcs = grid.clone();
    arcs.extend(vec![(3, 0, 1, 3, 0); 1_000]);
    let d = Draft::new(16, 0, &[(15, 0)], &arcs);
    out.push(given("lattice states and arcs", d, copy(), &[1; 64], None));
    for n in [63, 64, 65] {
        out.push(given("string length", loops(1, 1, 2, 1), loops(1, 2, 2, 1), &vec![1; n], ok));
    }
    out.extend(any_symbol());
    out.extend(cascades());
    for bad in [0, 65_535] {
        out.push(given("string with a barred label", loops(1, 1, 2, 1), copy(), &[1, bad, 1], ok));
    }
    out
}

/// Pairs that differ between the two chains: what one takes and the other
/// refuses, and what is refused in the lattice or only in its composition.
fn cascades() -> Vec<Case> {
    let any = 65_535;
    let one = Draft::new(1, 0, &[(0, 0)], &[]);
    // Composed first, more than 1,024 states; the trimmed lattice of the string has two.
    let wide = |n: usize, input: u16| {
        let arcs: Vec<Given> = (1..n).flat_map(|s| [(0, input, 2, s, 1), (s, 0, 3, s, 1)]).collect();
        Draft::new(n, 0, &[(n - 1, 0)], &arcs)
    };
    let mut out = vec![given("too wide to compose", wide(40, 1), wide(40, 2), &[1], Some(11))];
    // 11 in the lattice: 17 states that each of 64 places reaches.
    let grid: Vec<Given> = (0..17).flat_map(|s| [(s, 1, 3, s, 0), (s, 0, 0, (s + 1) % 17, 1)]).collect();
    out.push(given("11 in the lattice", Draft::new(17, 0, &[(16, 0)], &grid), one.clone(), &[1; 64], None));
    // The same with a right table of 12: the lattice's 11 comes first.
    out.push(given("11 in the lattice, 12 behind", Draft::new(17, 0, &[(16, 0)], &grid), loops(3_072, 3, 3, 0), &[1; 64], None));
    // 12 in the lattice, whose untrimmed arcs count.
    let dead: Vec<Given> = (0..3_072).map(|i| (i % 2, 1, 2, 1, 0)).collect();
    out.push(given("12 in the lattice, nothing accepts", Draft::new(3, 0, &[(2, 0)], &dead), one.clone(), &[1; 4], None));
    // Only what is trimmed away would make the composition too large.
    let mut arcs: Vec<Given> = vec![(0, 1, 9, 1, 0)];
    arcs.extend((2..600).map(|s| (0, 1, 2, s, 0)));
    let side = Draft::new(600, 0, &[(1, 0)], &arcs);
    out.push(given("small only where trimmed", side, wide(4, 2), &[1], None));
    // 11, 12 and 13 in the composition alone.
    out.push(given("11 behind the lattice", line(65, 1, 0, 0), line(17, 0, 7, 0), &[1; 64], None));
    out.push(given("12 behind the lattice", like_arcs(56, 1, 2, 0), like_arcs(55, 2, 3, 0), &[1], None));
    out.push(given("13 behind the lattice", one_arc(1, 2, 600_000, 0), one_arc(2, 3, 400_001, 0), &[1], None));
    out.push(given("13 off the string", one_arc(1, 2, 600_000, 0), one_arc(2, 3, 400_001, 0), &[2], None));
    // Arcs for any symbol on both sides, with named arcs beside those of the left.
    for output in [any, 7, 0] {
        let left = Draft::new(2, 0, &[(1, 3)], &[(0, any, output, 1, 1), (0, 6, 6, 1, 4), (1, any, any, 1, 2)]);
        for code in [&[6, 7][..], &[9][..], &[9, 6, 65_534][..]] {
            out.push(given("any on both sides", left.clone(), loops(2, any, any, 1), code, Some(18)));
        }
    }
    // Both tables refused, and 9 beside them.
    for (left, right, refusal) in [(8, 1, 8), (1, 8, 1), (0, 7, 7)] {
        let bytes = |r: u32| match r {
            1 => vec![8, 0, 1],
            7 => one_arc(1, any, 0, 0).bytes(),
            8 => one_arc(1, 2, 1_000_001, 0).bytes(),
            _ => one_arc(any, any, 0, 0).bytes(),
        };
        let join = if left == 0 { 18 } else { refusal };
        out.push(Case {
            name: "refusals of both tables".to_string(),
            left: bytes(left),
            right: bytes(right),
            code: vec![0],
            left_refusal: Some(left),
            join_refusal: Some(join),
        });
    }
    out.push(given("9, any on the left", one_arc(any, any, 0, 0), one.clone(), &[0], Some(18)));
    out
}

/// Arcs for any symbol on either side of a composition, and applied directly.
fn any_symbol() -> Vec<Case> {
    let any = 65_535;
    let mut out = Vec::new();
    // The symbol passed on, one written for it, nothing written.
    for output in [any, 7, 0] {
        out.push(given("any on the right", loops(1, 1, 6, 1), loops(1, any, output, 2), &[1, 1], Some(0)));
        // An empty output is never read by it.
        out.push(given("any and an empty output", loops(1, 1, 0, 1), loops(1, any, output, 2), &[1], Some(0)));
        // The left table is also applied, counted and walked by itself.
        out.push(given("any on the left", loops(1, any, output, 2), loops(1, 1, 2, 0), &[1, 65_534], Some(18)));
        out.push(given("any on a line", line(3, any, output, 2), loops(1, 1, 2, 0), &[3, 9], Some(18)));
    }
    // Named and any arcs of one state, in arc order, and silent ones between.
    let arcs = [(0, any, any, 1, 1), (0, 6, 6, 1, 4), (0, 0, 3, 1, 5), (0, any, 8, 0, 2), (0, 6, 0, 0, 3), (0, 7, any - 1, 1, 9)];
    let mixed = Draft::new(2, 0, &[(1, 0)], &arcs);
    for (symbol, code) in [(6, 1), (7, 1), (8, 1)] {
        out.push(given("named and any", loops(2, 1, symbol, 0), mixed.clone(), &[code, code], None));
    }
    out.push(given("named and any, applied", mixed.clone(), loops(1, 6, 6, 0), &[6, 7, 6], Some(18)));
    let named = Draft::new(2, 0, &[(1, 0)], &[(0, 6, 6, 1, 4), (0, any, any, 1, 1)]);
    out.push(given("paper 02's example of Point 6", loops(1, 6, 6, 0), named.clone(), &[6], Some(0)));
    out.push(given("the same, applied", named, loops(1, 6, 6, 0), &[7], Some(18)));
    // A named arc of another state hides nothing; one that leads nowhere does; behind the arc for any symbol, too.
    let other = Draft::new(2, 0, &[(1, 0)], &[(0, any, 9, 1, 1), (1, 6, 6, 1, 4)]);
    let nowhere = Draft::new(3, 0, &[(2, 0)], &[(0, any, any, 2, 1), (0, 6, 6, 1, 0)]);
    for (name, table) in [("named at another state", other), ("named and leading nowhere", nowhere)] {
        out.push(given(name, loops(1, 6, 6, 0), table.clone(), &[6, 6], Some(0)));
        out.push(given(name, table, loops(1, 6, 6, 0), &[6], Some(18)));
    }
    // 18 before the right table's 1, and behind the left table's 8.
    let broken = |bytes: Vec<u8>, left: u32, join: u32| Case {
        name: "18 among the others".to_string(),
        left: bytes,
        right: vec![8, 0, 1],
        code: vec![1],
        left_refusal: Some(left),
        join_refusal: Some(join),
    };
    out.push(broken(one_arc(any, any, 0, 0).bytes(), 0, 18));
    out.push(broken(one_arc(any, any, 1_000_001, 0).bytes(), 8, 8));
    out.push(broken(one_arc(1, 2, 0, 0).bytes(), 0, 1));
    // An arc that is not reached counts as well.
    let unreached = Draft::new(3, 0, &[(1, 0)], &[(0, 1, 2, 1, 0), (2, any, 4, 1, 0)]);
    out.push(given("any arc not reached", unreached, loops(1, 2, 2, 0), &[1], Some(18)));
    // One any arc in place of many, and beside many.
    let mut many: Vec<Given> = (1..=3_000).map(|x| (0, x, x, 0, 0)).collect();
    many.push((0, any, any, 0, 1));
    out.push(given("any beside 3,000", loops(2, 1, 3_001, 0), Draft::new(1, 0, &[(0, 0)], &many), &[1], Some(0)));
    out
}

/// Rings that sum below zero, to zero and above, on accepting paths and off them.
fn rings_below_zero() -> Vec<Case> {
    let copy = || loops(1, 2, 2, 0);
    let mut out = Vec::new();
    for sum in [-1, 0, 1] {
        // 0 to 1 to 2 and back to 1; 2 is final.
        let ring = [(1, 0, 2, 2, -5), (2, 0, 0, 1, 5 + sum)];
        let on = [&[(0, 1, 2, 1, 3)], &ring[..]].concat();
        out.push(given("ring on a path", Draft::new(3, 0, &[(2, -4)], &on), copy(), &[1], Some(0)));
        // The ring leads nowhere: state 3 is final.
        let dead = [&[(0, 1, 2, 1, 3), (0, 1, 2, 3, -3)], &ring[..]].concat();
        out.push(given("ring reached, no end behind", Draft::new(4, 0, &[(3, 0)], &dead), copy(), &[1], Some(0)));
        // Nothing leads to the ring, and the ring leads to the end.
        let off = [&[(0, 1, 2, 3, -3)], &ring[..], &[(2, 0, 0, 3, 0)]].concat();
        out.push(given("ring not reached, an end behind", Draft::new(4, 0, &[(3, 0)], &off), copy(), &[1], Some(0)));
        // Neither.
        let apart = [&[(0, 1, 2, 3, -3)], &ring[..]].concat();
        out.push(given("ring apart", Draft::new(4, 0, &[(3, 0)], &apart), copy(), &[1], Some(0)));
        // Nothing accepts at all: 16, and not 19.
        let none = [&[(0, 1, 2, 1, 3)], &ring[..]].concat();
        out.push(given("ring and no end", Draft::new(3, 0, &[], &none), copy(), &[1], Some(0)));
        // Two rings through one state, of which one pays.
        let two = [&[(0, 1, 2, 1, 3), (1, 0, 2, 1, 0)], &ring[..]].concat();
        out.push(given("two rings", Draft::new(3, 0, &[(1, 0)], &two), copy(), &[1], Some(0)));
    }
    // A ring of all states, whose sum its last arc decides; the others are near both ends.
    for (n, sum) in [(5, -1), (5, 0), (1_023, -1), (1_024, -1), (1_024, 0), (1_024, 1)] {
        let mut arcs: Vec<Given> = (1..n).map(|s| (s - 1, 0, 2, s, if s % 2 == 0 { 999_999 } else { -999_999 })).collect();
        let rest: i32 = arcs.iter().map(|a| a.4).sum();
        arcs.push((n - 1, 0, 2, 0, sum - rest));
        out.push(given("ring of all states", Draft::new(n, 0, &[(n / 2, 0)], &arcs), copy(), &[], None));
    }
    // The costs at both ends: 1,023 arcs and a final weight.
    for w in [-1_000_000, 1_000_000] {
        let mut d = line(1_024, 1, 2, w);
        d.finals[0].1 = w;
        out.push(given("the whole cost", d, copy(), &[1; 64], Some(0)));
    }
    out
}

/// Case number k of a seed. The first ones are fixed.
pub fn make(rng: &mut Rng, k: usize, fixed: &mut Vec<Option<Case>>) -> Case {
    if k < fixed.len() {
        if let Some(case) = fixed[k].take() {
            return case;
        }
    }
    if rng.chance(1, 60) {
        return near_limit(rng);
    }
    match rng.below(22) {
        20..=21 => {
            let (l, r, code) = any_first(rng);
            given("any first", l, r, &code, None)
        }
        0..=4 => {
            let (left, known) = damaged(rng);
            let base = small(rng, 4, 6);
            let right = if rng.chance(1, 2) { base.bytes() } else { damaged(rng).0 };
            let code = string(rng, &base);
            let swap = rng.chance(1, 3);
            let (left, right) = if swap { (right, left) } else { (left, right) };
            Case {
                name: "damaged".to_string(),
                left,
                right,
                code,
                left_refusal: if swap { None } else { known },
                join_refusal: if swap { None } else { known },
            }
        }
        5..=6 => {
            let (mut l, mut r) = (ring(rng), if rng.chance(1, 2) { ring(rng) } else { small(rng, 3, 5) });
            with_any(rng, &mut l, 15);
            with_any(rng, &mut r, 3);
            let code = string(rng, &l);
            given("ring", l, r, &code, None)
        }
        7 => {
            let (l, mut r, code) = corrections(rng);
            with_any(rng, &mut r, 3);
            given("corrections", l, r, &code, None)
        }
        8..=12 => {
            let (l, mut r, code) = matched(rng);
            with_any(rng, &mut r, 3);
            given("matched", l, r, &code, None)
        }
        x => {
            let (most, arcs) = if x < 16 { (3, 5) } else { (6, 12) };
            let mut l = small(rng, most, arcs);
            let mut r = small(rng, most, arcs);
            with_any(rng, &mut l, 12);
            with_any(rng, &mut r, 3);
            let code = string(rng, &l);
            given("small", l, r, &code, None)
        }
    }
}
