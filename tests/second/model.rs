// Naive model of the transducer reader, written from papers 01 and 02 alone.
// Plain vectors and hash maps; nothing here is meant to be quick.
//
// Every call takes the lent buffers as slices and leaves them as the paper
// says. An answer is the refusal (0 = success) and the other numbers, which
// are 0 on refusal.
#![allow(dead_code)]

use std::collections::HashMap;

pub const MAX_STATES: usize = 1_024;
pub const MAX_ARCS: usize = 3_072;
/// A weight is a whole number from -1,000,000 to 1,000,000 (02, Point 8).
pub const MAX_WEIGHT: i64 = 1_000_000;
pub const MIN_WEIGHT: i64 = -1_000_000;
pub const MAX_CODE: usize = 64;
pub const BARRED: u16 = 65_535;
/// As an input it fits each symbol that no arc of its state names, as an output it passes on the symbol read (02, Points 5 and 6).
pub const ANY: u16 = 65_535;
pub const STILL: u16 = 65_535;
pub const MANY: usize = 99;

// Least lengths of lent buffers (refusal 10).
pub const TABLE_BYTES: usize = 59_404;
pub const JOIN_ORIGINS: usize = 6_144;
pub const LATTICE_ORIGINS: usize = 3_072;
pub const WORK_STATES: usize = 1_024;
pub const PATH_ARCS: usize = 1_023;
pub const COST_CELLS: usize = 1_024;
pub const READ_FINALS: usize = 1_024;
pub const READ_FIELDS: usize = 12_288;
pub const READ_WEIGHTS: usize = 3_072;

#[derive(Clone, Debug, PartialEq)]
pub struct Arc {
    pub source: usize,
    pub input: u16,
    pub output: u16,
    pub target: usize,
    pub weight: i64,
}

#[derive(Clone, Debug, PartialEq)]
pub struct Table {
    pub states: usize,
    pub start: usize,
    pub finals: Vec<(usize, i64)>,
    pub arcs: Vec<Arc>,
}

impl Table {
    pub fn final_weight(&self, state: usize) -> Option<i64> {
        self.finals.iter().find(|x| x.0 == state).map(|x| x.1)
    }

    /// Arc numbers leaving each state, in order.
    pub fn leaving(&self) -> Vec<Vec<usize>> {
        let mut out = vec![Vec::new(); self.states];
        for (i, a) in self.arcs.iter().enumerate() {
            out[a.source].push(i);
        }
        out
    }
}

// ---------------------------------------------------------------- bytes

fn two(bytes: &[u8], at: usize) -> u16 {
    bytes[at] as u16 + 256 * bytes[at + 1] as u16
}

/// Four bytes as a two's complement number: the highest bit counts -2^31.
fn weight(bytes: &[u8], at: usize) -> i64 {
    let whole = two(bytes, at) as i64 + 65_536 * two(bytes, at + 2) as i64;
    if bytes[at + 3] < 128 { whole } else { whole - 4_294_967_296 }
}

/// Whether 8, or 13, refuses a weight: both ends are guarded.
fn beyond(weight: i64) -> bool {
    weight < MIN_WEIGHT || weight > MAX_WEIGHT
}

/// Splits the bytes into records (kind, body). Refusal 1 looks at lengths
/// alone, so a record of an unknown kind is walked over like any other.
fn records(bytes: &[u8]) -> Result<Vec<(u16, Vec<u8>)>, u32> {
    let mut found = Vec::new();
    let mut rest = bytes;
    while !rest.is_empty() {
        if rest.len() < 4 {
            return Err(1);
        }
        let length = two(rest, 0) as usize;
        if rest.len() - 4 < length {
            return Err(1);
        }
        found.push((two(rest, 2), rest[4..4 + length].to_vec()));
        rest = &rest[4 + length..];
    }
    Ok(found)
}

fn test_kinds(records: &[(u16, Vec<u8>)]) -> Result<(), u32> {
    if records.is_empty() {
        return Err(2);
    }
    for (i, (kind, body)) in records.iter().enumerate() {
        let length = match kind {
            1 => 8,
            2 => 6,
            3 => 12,
            _ => return Err(2),
        };
        if body.len() != length {
            return Err(2);
        }
        if (*kind == 1) != (i == 0) {
            return Err(2);
        }
        if i > 0 && records[i - 1].0 > *kind {
            return Err(2);
        }
    }
    Ok(())
}

fn test_head(n: u64, m: u64, f: u64, start: u64) -> Result<(), u32> {
    if n < 1 || n > MAX_STATES as u64 {
        return Err(3);
    }
    if m > MAX_ARCS as u64 {
        return Err(3);
    }
    if f > n {
        return Err(3);
    }
    if start >= n {
        return Err(3);
    }
    Ok(())
}

/// Refusals 5 to 8, each over the whole table before the next.
fn test_body(t: &Table) -> Result<(), u32> {
    for refusal in [5, 6, 7, 8] {
        for (i, (state, weight)) in t.finals.iter().enumerate() {
            let bad = match refusal {
                5 => *state >= t.states,
                6 => i > 0 && t.finals[i - 1].0 >= *state,
                7 => false,
                _ => beyond(*weight),
            };
            if bad {
                return Err(refusal);
            }
        }
        for (i, a) in t.arcs.iter().enumerate() {
            let bad = match refusal {
                5 => a.source >= t.states || a.target >= t.states,
                6 => i > 0 && t.arcs[i - 1].source > a.source,
                7 => a.output == ANY && a.input != ANY,
                _ => beyond(a.weight),
            };
            if bad {
                return Err(refusal);
            }
        }
    }
    Ok(())
}

pub fn parse(bytes: &[u8]) -> Result<Table, u32> {
    let records = records(bytes)?;
    test_kinds(&records)?;
    let head: Vec<u64> = (0..4).map(|i| two(&records[0].1, 2 * i) as u64).collect();
    let (n, m, f, start) = (head[0], head[1], head[2], head[3]);
    test_head(n, m, f, start)?;
    let finals: Vec<_> = records.iter().filter(|r| r.0 == 2).collect();
    let arcs: Vec<_> = records.iter().filter(|r| r.0 == 3).collect();
    if finals.len() as u64 != f || arcs.len() as u64 != m {
        return Err(4);
    }
    let t = Table {
        states: n as usize,
        start: start as usize,
        finals: finals.iter().map(|r| (two(&r.1, 0) as usize, weight(&r.1, 2))).collect(),
        arcs: arcs
            .iter()
            .map(|r| Arc {
                source: two(&r.1, 0) as usize,
                input: two(&r.1, 2),
                output: two(&r.1, 4),
                target: two(&r.1, 6) as usize,
                weight: weight(&r.1, 8),
            })
            .collect(),
    };
    test_body(&t)?;
    Ok(t)
}

pub fn bytes_of(t: &Table) -> Vec<u8> {
    fn put2(out: &mut Vec<u8>, x: usize) {
        out.extend((x as u16).to_le_bytes());
    }
    fn put4(out: &mut Vec<u8>, x: i64) {
        let bits = if x < 0 { x + 4_294_967_296 } else { x };
        out.extend((0..4).map(|i| (bits >> (8 * i)) as u8));
    }
    let mut out = Vec::new();
    for x in [8, 1, t.states, t.arcs.len(), t.finals.len(), t.start] {
        put2(&mut out, x);
    }
    for (state, weight) in &t.finals {
        for x in [6, 2, *state] {
            put2(&mut out, x);
        }
        put4(&mut out, *weight);
    }
    for a in &t.arcs {
        for x in [12, 3, a.source, a.input as usize, a.output as usize, a.target] {
            put2(&mut out, x);
        }
        put4(&mut out, a.weight);
    }
    out
}

// -------------------------------------------------------------- buffers

/// Writes the items to the front of a buffer and zeros behind them.
fn fill<T: Copy + Default>(buffer: &mut [T], items: &[T]) {
    buffer[..items.len()].copy_from_slice(items);
    let behind = items.len();
    for x in &mut buffer[behind..] {
        *x = T::default();
    }
}

fn clear<T: Copy + Default>(buffer: &mut [T]) {
    fill(buffer, &[]);
}

fn origins16(numbers: &[usize]) -> Vec<u16> {
    numbers.iter().map(|x| *x as u16).collect()
}

// ----------------------------------------------------- read and write

pub fn refusal(bytes: &[u8]) -> u32 {
    match parse(bytes) {
        Ok(_) => 0,
        Err(r) => r,
    }
}

pub fn read(
    bytes: &[u8],
    final_states: &mut [u16],
    final_weights: &mut [i32],
    fields: &mut [u16],
    arc_weights: &mut [i32],
) -> (u32, [u32; 4]) {
    let t = match parse(bytes) {
        Ok(t) => t,
        Err(r) => return (r, [0; 4]),
    };
    if final_states.len() < READ_FINALS
        || final_weights.len() < READ_FINALS
        || fields.len() < READ_FIELDS
        || arc_weights.len() < READ_WEIGHTS
    {
        return (10, [0; 4]);
    }
    let states: Vec<u16> = t.finals.iter().map(|x| x.0 as u16).collect();
    let weights: Vec<i32> = t.finals.iter().map(|x| x.1 as i32).collect();
    let mut four_each: Vec<u16> = Vec::new();
    for a in &t.arcs {
        four_each.extend([a.source as u16, a.input, a.output, a.target as u16]);
    }
    let costs: Vec<i32> = t.arcs.iter().map(|a| a.weight as i32).collect();
    fill(final_states, &states);
    fill(final_weights, &weights);
    fill(fields, &four_each);
    fill(arc_weights, &costs);
    let head = [t.states, t.arcs.len(), t.finals.len(), t.start];
    (0, head.map(|x| x as u32))
}

pub fn write(
    head: [u32; 4],
    final_states: &[u16],
    final_weights: &[i32],
    fields: &[u16],
    arc_weights: &[i32],
    out: &mut [u8],
) -> (u32, u32) {
    let [n, m, f, start] = head;
    if let Err(r) = test_head(n as u64, m as u64, f as u64, start as u64) {
        return (r, 0);
    }
    let (m, f) = (m as usize, f as usize);
    // An arc is given when all four fields and its weight are there.
    if final_states.len() < f || final_weights.len() < f {
        return (4, 0);
    }
    if fields.len() < 4 * m || arc_weights.len() < m {
        return (4, 0);
    }
    let t = Table {
        states: n as usize,
        start: start as usize,
        finals: (0..f).map(|i| (final_states[i] as usize, final_weights[i] as i64)).collect(),
        arcs: (0..m)
            .map(|i| Arc {
                source: fields[4 * i] as usize,
                input: fields[4 * i + 1],
                output: fields[4 * i + 2],
                target: fields[4 * i + 3] as usize,
                weight: arc_weights[i] as i64,
            })
            .collect(),
    };
    if let Err(r) = test_body(&t) {
        return (r, 0);
    }
    if out.len() < TABLE_BYTES {
        return (10, 0);
    }
    let bytes = bytes_of(&t);
    fill(out, &bytes);
    (0, bytes.len() as u32)
}

// ---------------------------------------------------------- any symbol

/// Whether an arc reads a symbol. The empty label is none. One for any symbol
/// reads what no arc of its state names (02, Point 6).
fn fits(t: &Table, a: &Arc, symbol: u16) -> bool {
    symbol != 0 && (a.input == symbol || a.input == ANY && !named(t, a.source, symbol))
}

/// Whether an arc of a state has a symbol as its input, wherever it leads.
fn named(t: &Table, state: usize, symbol: u16) -> bool {
    let first = t.arcs.partition_point(|a| a.source < state);
    t.arcs[first..].iter().take_while(|a| a.source == state).any(|a| a.input == symbol)
}

/// What an arc writes that reads a symbol.
fn passed(output: u16, symbol: u16) -> u16 {
    if output == ANY { symbol } else { output }
}

/// 18: an arc of input 65,535, reached or not.
pub fn has_any(t: &Table) -> bool {
    t.arcs.iter().any(|a| a.input == ANY)
}

// -------------------------------------------------------------- compose

pub struct Joined {
    pub table: Table,
    pub origins: Vec<(u16, u16)>,
}

/// Breadth-first composition. All triples are looked for before arcs are
/// counted, and arcs are counted before weights are looked at: 11, 12, 13.
pub fn join(left: &Table, right: &Table) -> Result<Joined, u32> {
    if has_any(left) {
        return Err(18);
    }
    let of_left = left.leaving();
    let of_right = right.leaving();
    let first = (left.start, right.start, 0);
    let mut numbers: HashMap<(usize, usize, u8), usize> = HashMap::from([(first, 0)]);
    let mut triples = vec![first];
    let mut arcs: Vec<Arc> = Vec::new();
    let mut origins: Vec<(u16, u16)> = Vec::new();
    let mut i = 0;
    while i < triples.len() {
        let (p, q, mark) = triples[i];
        let mut steps = Vec::new();
        for &l in &of_left[p] {
            let a = &left.arcs[l];
            if a.output == 0 {
                if mark == 0 {
                    steps.push(((a.target, q, 0), a.input, 0, a.weight, (l as u16, STILL)));
                }
                continue;
            }
            for &r in &of_right[q] {
                let b = &right.arcs[r];
                if fits(right, b, a.output) {
                    let to = (a.target, b.target, 0);
                    let weight = a.weight + b.weight;
                    let output = passed(b.output, a.output);
                    steps.push((to, a.input, output, weight, (l as u16, r as u16)));
                }
            }
        }
        for &r in &of_right[q] {
            let b = &right.arcs[r];
            if b.input == 0 {
                steps.push(((p, b.target, 1), 0, b.output, b.weight, (STILL, r as u16)));
            }
        }
        for (to, input, output, weight, origin) in steps {
            let target = match numbers.get(&to) {
                Some(&number) => number,
                None => {
                    numbers.insert(to, triples.len());
                    triples.push(to);
                    triples.len() - 1
                }
            };
            // One more than allowed is enough to know of refusal 12.
            if arcs.len() <= MAX_ARCS {
                arcs.push(Arc { source: i, input, output, target, weight });
                origins.push(origin);
            }
        }
        if triples.len() > MAX_STATES {
            return Err(11);
        }
        i += 1;
    }
    if arcs.len() > MAX_ARCS {
        return Err(12);
    }
    let mut finals = Vec::new();
    for (i, &(p, q, _mark)) in triples.iter().enumerate() {
        if let (Some(x), Some(y)) = (left.final_weight(p), right.final_weight(q)) {
            finals.push((i, x + y));
        }
    }
    if arcs.iter().any(|a| beyond(a.weight)) || finals.iter().any(|x| beyond(x.1)) {
        return Err(13);
    }
    let table = Table { states: triples.len(), start: 0, finals, arcs };
    Ok(Joined { table, origins })
}

pub fn compose(
    left: &[u8],
    right: &[u8],
    table: &mut [u8],
    origins: &mut [u16],
    states: &mut [u32],
) -> (u32, u32) {
    let a = match parse(left) {
        Ok(t) => t,
        Err(r) => return (r, 0),
    };
    // 18 comes directly behind 8 of the left table, before the right one's 1.
    if has_any(&a) {
        return (18, 0);
    }
    let b = match parse(right) {
        Ok(t) => t,
        Err(r) => return (r, 0),
    };
    if table.len() < TABLE_BYTES || origins.len() < JOIN_ORIGINS || states.len() < WORK_STATES {
        return (10, 0);
    }
    match join(&a, &b) {
        Ok(joined) => {
            let bytes = bytes_of(&joined.table);
            let two_each: Vec<u16> = joined.origins.iter().flat_map(|o| [o.0, o.1]).collect();
            fill(table, &bytes);
            fill(origins, &two_each);
            clear(states);
            (0, bytes.len() as u32)
        }
        Err(r) => {
            clear(table);
            clear(origins);
            clear(states);
            (r, 0)
        }
    }
}

// ----------------------------------------------------------------- trim

/// Which states lie on an accepting path.
pub fn live(t: &Table) -> Vec<bool> {
    let mut reached = vec![false; t.states];
    reached[t.start] = true;
    loop {
        let before = reached.clone();
        for a in &t.arcs {
            if reached[a.source] {
                reached[a.target] = true;
            }
        }
        if reached == before {
            break;
        }
    }
    let mut accepts = vec![false; t.states];
    for (state, _) in &t.finals {
        accepts[*state] = true;
    }
    loop {
        let before = accepts.clone();
        for a in t.arcs.iter().rev() {
            if accepts[a.target] {
                accepts[a.source] = true;
            }
        }
        if accepts == before {
            break;
        }
    }
    (0..t.states).map(|s| reached[s] && accepts[s]).collect()
}

/// The trimmed table and, for each kept arc, its number before.
pub fn trimmed(t: &Table) -> (Table, Vec<usize>) {
    let live = live(t);
    if !live[t.start] {
        let alone = Table { states: 1, start: 0, finals: vec![], arcs: vec![] };
        return (alone, vec![]);
    }
    let number = |s: usize| live[..s].iter().filter(|x| **x).count();
    let kept: Vec<usize> = (0..t.arcs.len())
        .filter(|&i| live[t.arcs[i].source] && live[t.arcs[i].target])
        .collect();
    let table = Table {
        states: number(t.states),
        start: number(t.start),
        finals: t.finals.iter().filter(|x| live[x.0]).map(|x| (number(x.0), x.1)).collect(),
        arcs: kept
            .iter()
            .map(|&i| {
                let a = t.arcs[i].clone();
                Arc { source: number(a.source), target: number(a.target), ..a }
            })
            .collect(),
    };
    (table, kept)
}

pub fn trim(bytes: &[u8], out: &mut [u8], origins: &mut [u16]) -> (u32, u32) {
    let t = match parse(bytes) {
        Ok(t) => t,
        Err(r) => return (r, 0),
    };
    if out.len() < TABLE_BYTES || origins.len() < LATTICE_ORIGINS {
        return (10, 0);
    }
    let (small, kept) = trimmed(&t);
    let bytes = bytes_of(&small);
    fill(out, &bytes);
    fill(origins, &origins16(&kept));
    (0, bytes.len() as u32)
}

// ---------------------------------------------------------------- apply

/// The lattice of a string before trimming, with the table arc of each arc.
pub fn lattice(code: &[u16], t: &Table) -> Result<(Table, Vec<usize>), u32> {
    let leaving = t.leaving();
    let mut numbers: HashMap<(usize, usize), usize> = HashMap::from([((0, t.start), 0)]);
    let mut reached = vec![(0, t.start)];
    let mut arcs: Vec<Arc> = Vec::new();
    let mut origins = Vec::new();
    let mut i = 0;
    while i < reached.len() {
        let (place, state) = reached[i];
        for &x in &leaving[state] {
            let a = &t.arcs[x];
            let (next, input, output) = if a.input == 0 {
                (place, 0, a.output)
            } else if place < code.len() && fits(t, a, code[place]) {
                (place + 1, code[place], passed(a.output, code[place]))
            } else {
                continue;
            };
            let to = (next, a.target);
            let target = match numbers.get(&to) {
                Some(&number) => number,
                None => {
                    numbers.insert(to, reached.len());
                    reached.push(to);
                    reached.len() - 1
                }
            };
            arcs.push(Arc { source: i, input, output, target, weight: a.weight });
            origins.push(x);
        }
        if reached.len() > MAX_STATES {
            return Err(11);
        }
        i += 1;
    }
    if arcs.len() > MAX_ARCS {
        return Err(12);
    }
    let mut finals = Vec::new();
    for (i, &(place, state)) in reached.iter().enumerate() {
        if let (true, Some(w)) = (place == code.len(), t.final_weight(state)) {
            finals.push((i, w));
        }
    }
    Ok((Table { states: reached.len(), start: 0, finals, arcs }, origins))
}

/// The table is tested before the string, as 1 to 8 come before 9.
pub fn apply(
    code: &[u16],
    bytes: &[u8],
    out: &mut [u8],
    origins: &mut [u16],
    pairs: &mut [u32],
) -> (u32, u32) {
    let t = match parse(bytes) {
        Ok(t) => t,
        Err(r) => return (r, 0),
    };
    if code.len() > MAX_CODE || code.iter().any(|&x| x == 0 || x == BARRED) {
        return (9, 0);
    }
    if out.len() < TABLE_BYTES || origins.len() < LATTICE_ORIGINS || pairs.len() < WORK_STATES {
        return (10, 0);
    }
    match lattice(code, &t) {
        Ok((whole, from)) => {
            let (small, kept) = trimmed(&whole);
            let numbers: Vec<usize> = kept.iter().map(|&i| from[i]).collect();
            let bytes = bytes_of(&small);
            fill(out, &bytes);
            fill(origins, &origins16(&numbers));
            clear(pairs);
            (0, bytes.len() as u32)
        }
        Err(r) => {
            clear(out);
            clear(origins);
            clear(pairs);
            (r, 0)
        }
    }
}

// ----------------------------------------------------- count and paths

/// Whether infinitely many paths accept: a ring of live states is left
/// when live states without an arc to a live state are taken away.
pub fn endless(t: &Table) -> bool {
    let leaving = t.leaving();
    let mut left = live(t);
    loop {
        let before = left.clone();
        for s in (0..t.states).rev() {
            let goes_on = leaving[s].iter().any(|&i| left[t.arcs[i].target]);
            if left[s] && !goes_on {
                left[s] = false;
            }
        }
        if left == before {
            break;
        }
    }
    left.contains(&true)
}

/// The first accepting paths in path order, at most `most` of them.
/// Only for tables that are not endless.
pub fn first_paths(t: &Table, most: usize) -> Vec<Vec<u16>> {
    let mut found = Vec::new();
    let lists = (t.leaving(), live(t));
    if lists.1[t.start] {
        walk(t, &lists, t.start, most, &mut Vec::new(), &mut found);
    }
    found
}

fn walk(
    t: &Table,
    lists: &(Vec<Vec<usize>>, Vec<bool>),
    state: usize,
    most: usize,
    path: &mut Vec<u16>,
    found: &mut Vec<Vec<u16>>,
) {
    if found.len() < most && t.final_weight(state).is_some() {
        found.push(path.clone());
    }
    for &i in &lists.0[state] {
        let target = t.arcs[i].target;
        if found.len() < most && lists.1[target] {
            path.push(i as u16);
            walk(t, lists, target, most, path, found);
            path.pop();
        }
    }
}

pub fn count(bytes: &[u8]) -> (u32, u32) {
    let t = match parse(bytes) {
        Ok(t) => t,
        Err(r) => return (r, 0),
    };
    if endless(&t) {
        return (14, 0);
    }
    (0, first_paths(&t, MANY).len() as u32)
}

/// The state a path from the start ends in.
pub fn path_end(t: &Table, path: &[u16]) -> usize {
    path.last().map_or(t.start, |&i| t.arcs[i as usize].target)
}

pub fn path_cost(t: &Table, path: &[u16]) -> i64 {
    let arcs: i64 = path.iter().map(|&i| t.arcs[i as usize].weight).sum();
    arcs + t.final_weight(path_end(t, path)).unwrap()
}

pub fn path_writes(t: &Table, path: &[u16]) -> Vec<u16> {
    let written = path.iter().map(|&i| t.arcs[i as usize].output);
    written.filter(|&x| x != 0).collect()
}

pub fn path_reads(t: &Table, path: &[u16]) -> Vec<u16> {
    let read = path.iter().map(|&i| t.arcs[i as usize].input);
    read.filter(|&x| x != 0).collect()
}

/// What a path writes that fits a string, with the symbols it passes on.
pub fn path_passes(t: &Table, path: &[u16], string: &[u16]) -> Vec<u16> {
    let mut rest = string.iter();
    let mut written = Vec::new();
    for &i in path {
        let a = &t.arcs[i as usize];
        let symbol = if a.input == 0 { 0 } else { *rest.next().unwrap() };
        written.push(passed(a.output, symbol));
    }
    written.into_iter().filter(|&x| x != 0).collect()
}

/// Cost, number of arcs, number of labels.
pub type Told = (i64, u32, u32);

fn tell(t: &Table, path: &[u16], arcs: &mut [u16], labels: &mut [u16]) -> (u32, Told) {
    let written = path_writes(t, path);
    fill(arcs, path);
    fill(labels, &written);
    (0, (path_cost(t, path), path.len() as u32, written.len() as u32))
}

pub fn nth(bytes: &[u8], k: u32, arcs: &mut [u16], labels: &mut [u16]) -> (u32, Told) {
    let t = match parse(bytes) {
        Ok(t) => t,
        Err(r) => return (r, (0, 0, 0)),
    };
    if arcs.len() < PATH_ARCS || labels.len() < PATH_ARCS {
        return (10, (0, 0, 0));
    }
    if endless(&t) {
        return (14, (0, 0, 0));
    }
    let paths = first_paths(&t, MANY);
    if k as usize >= paths.len() {
        return (15, (0, 0, 0));
    }
    tell(&t, &paths[k as usize], arcs, labels)
}

/// A cost, and how many labels are written at it.
type Sum = (i64, i64);

/// What an arc adds: its weight, and its output label where that is not empty.
fn adds(a: &Arc) -> Sum {
    (a.weight, i64::from(a.output != 0))
}

/// To come: by number of arcs k and then by state, the least cost of going on
/// by exactly k arcs and accepting there, and the fewest labels at that cost.
/// Only states and arcs that lie on an accepting path are in it; it stops
/// where k arcs are too many for all, and at k = n.
fn to_come(t: &Table) -> Vec<Vec<Option<Sum>>> {
    let live = live(t);
    let at_once = |s: usize| if live[s] { t.final_weight(s).map(|w| (w, 0)) } else { None };
    let mut layers = vec![(0..t.states).map(at_once).collect::<Vec<_>>()];
    while layers.len() <= t.states {
        let last = &layers[layers.len() - 1];
        let mut next = vec![None; t.states];
        for a in t.arcs.iter().filter(|a| live[a.source]) {
            let Some(rest) = last[a.target] else { continue };
            let sum = (adds(a).0 + rest.0, adds(a).1 + rest.1);
            next[a.source] = Some(next[a.source].map_or(sum, |old: Sum| old.min(sum)));
        }
        if next.iter().all(|x| x.is_none()) {
            break;
        }
        layers.push(next);
    }
    layers
}

/// The least cost to come of a state by fewer arcs than there are states, and
/// the fewest labels at that cost.
fn least_below(t: &Table, layers: &[Vec<Option<Sum>>], state: usize) -> Option<Sum> {
    layers.iter().take(t.states).filter_map(|layer| layer[state]).min()
}

/// Whether some accepting path has on it a ring of arcs that sums below zero.
/// Going on by n arcs passes some state twice. Where no ring pays, cutting it
/// out costs no more, so n arcs are never better than fewer; and where they
/// are better for no state, nor are more of them, ever.
fn ring_below_zero(t: &Table, layers: &[Vec<Option<Sum>>]) -> bool {
    let Some(by_n) = layers.get(t.states) else { return false };
    (0..t.states).any(|s| by_n[s].is_some_and(|(cost, _)| least_below(t, layers, s).map_or(true, |(least, _)| cost < least)))
}

/// The accepting path of least cost, then fewest labels that are not empty,
/// then fewest arcs, then first in path order: at each state the first arc
/// that keeps to that cost and those numbers. Only for tables without a ring
/// below zero.
fn least_path(t: &Table, layers: &[Vec<Option<Sum>>]) -> Option<Vec<u16>> {
    let least = least_below(t, layers, t.start)?;
    let mut left = layers.iter().position(|layer| layer[t.start] == Some(least))?;
    let (mut state, mut sum, mut path) = (t.start, least, Vec::new());
    while left > 0 {
        left -= 1;
        let rest = |a: &Arc| (sum.0 - adds(a).0, sum.1 - adds(a).1);
        let keeps = |a: &Arc| a.source == state && layers[left][a.target] == Some(rest(a));
        let i = t.arcs.iter().position(keeps)?;
        path.push(i as u16);
        (state, sum) = (t.arcs[i].target, rest(&t.arcs[i]));
    }
    Some(path)
}

/// 16 where nothing accepts, then 19, else the cheapest reading.
pub fn cheapest(t: &Table) -> Result<Vec<u16>, u32> {
    let layers = to_come(t);
    let Some(path) = least_path(t, &layers) else { return Err(16) };
    if ring_below_zero(t, &layers) {
        return Err(19);
    }
    Ok(path)
}

pub fn shortest(bytes: &[u8], arcs: &mut [u16], labels: &mut [u16]) -> (u32, Told) {
    let t = match parse(bytes) {
        Ok(t) => t,
        Err(r) => return (r, (0, 0, 0)),
    };
    if arcs.len() < PATH_ARCS || labels.len() < PATH_ARCS {
        return (10, (0, 0, 0));
    }
    match cheapest(&t) {
        Ok(path) => tell(&t, &path, arcs, labels),
        Err(r) => (r, (0, 0, 0)),
    }
}

// -------------------------------------------------------- costs to come

/// What a cell has where there is no cost.
pub const NO_COST: i64 = 1_000_000_000_001;

/// By state, the least cost of going on to a final state: final weights start
/// the sum, and arcs are added going back, round after round. A path of least
/// cost need not pass a state twice, so that round n changes nothing, but where
/// a ring of arcs that sums below zero has a final state behind it: then each
/// round changes something, for ever.
pub fn costs_back(t: &Table) -> Result<Vec<Option<i64>>, u32> {
    let mut costs: Vec<Option<i64>> = (0..t.states).map(|s| t.final_weight(s)).collect();
    for _ in 0..t.states {
        let before = costs.clone();
        for a in &t.arcs {
            let Some(rest) = before[a.target] else { continue };
            let sum = a.weight + rest;
            costs[a.source] = Some(costs[a.source].map_or(sum, |old| old.min(sum)));
        }
        if costs == before {
            return Ok(costs);
        }
    }
    Err(19)
}

/// One cell for each state, and none past the last one.
pub fn distance(bytes: &[u8], cells: &mut [i64]) -> u32 {
    let t = match parse(bytes) {
        Ok(t) => t,
        Err(r) => return r,
    };
    if cells.len() < COST_CELLS {
        return 10;
    }
    match costs_back(&t) {
        Ok(costs) => {
            let cell = |s: usize| costs.get(s).copied().flatten().unwrap_or(NO_COST);
            fill(cells, &(0..COST_CELLS).map(cell).collect::<Vec<_>>());
            0
        }
        Err(r) => r,
    }
}

// ------------------------------------------------------- the whole chain

/// Compose, apply, count. The first refusal ends it.
pub fn readings(left: &[u8], right: &[u8], code: &[u16]) -> (u32, u32) {
    let mut table = vec![0; TABLE_BYTES];
    let mut origins = vec![0; JOIN_ORIGINS];
    let mut work = vec![0; WORK_STATES];
    let (refused, length) = compose(left, right, &mut table, &mut origins, &mut work);
    if refused != 0 {
        return (refused, 0);
    }
    let mut lattice = vec![0; TABLE_BYTES];
    let (refused, length) = apply(code, &table[..length as usize], &mut lattice, &mut origins, &mut work);
    if refused != 0 {
        return (refused, 0);
    }
    count(&lattice[..length as usize])
}

// ----------------------------------------------------------- the cascade

/// A string applied to the left table, and the trimmed lattice joined with the
/// right one. Left origins are arcs of the left table and not of the lattice.
/// A lattice has no arc for any symbol, whatever the left table has.
pub fn cascaded(left: &Table, right: &Table, code: &[u16]) -> Result<Joined, u32> {
    let (whole, from) = lattice(code, left)?;
    let (small, kept) = trimmed(&whole);
    let joined = join(&small, right)?;
    let of_table = |l: u16| if l == STILL { STILL } else { from[kept[l as usize]] as u16 };
    let origins = joined.origins.iter().map(|&(l, r)| (of_table(l), r)).collect();
    Ok(Joined { table: joined.table, origins })
}

/// What comes before the string and the lent buffers, then 9.
fn cascade_inputs(left: &[u8], right: &[u8], code: &[u16]) -> Result<(Table, Table), u32> {
    let a = parse(left)?;
    let b = parse(right)?;
    if code.len() > MAX_CODE || code.iter().any(|&x| x == 0 || x == BARRED) {
        return Err(9);
    }
    Ok((a, b))
}

pub fn cascade(
    left: &[u8],
    right: &[u8],
    code: &[u16],
    table: &mut [u8],
    origins: &mut [u16],
    states: &mut [u32],
) -> (u32, u32) {
    let (a, b) = match cascade_inputs(left, right, code) {
        Ok(both) => both,
        Err(r) => return (r, 0),
    };
    if table.len() < TABLE_BYTES || origins.len() < JOIN_ORIGINS || states.len() < WORK_STATES {
        return (10, 0);
    }
    match cascaded(&a, &b, code) {
        Ok(joined) => {
            let bytes = bytes_of(&joined.table);
            let two_each: Vec<u16> = joined.origins.iter().flat_map(|o| [o.0, o.1]).collect();
            fill(table, &bytes);
            fill(origins, &two_each);
            clear(states);
            (0, bytes.len() as u32)
        }
        Err(r) => {
            clear(table);
            clear(origins);
            clear(states);
            (r, 0)
        }
    }
}

/// The cascade's count; nothing is lent, so that 10 does not arise.
pub fn cascade_readings(left: &[u8], right: &[u8], code: &[u16]) -> (u32, u32) {
    let made = cascade_inputs(left, right, code).and_then(|(a, b)| cascaded(&a, &b, code));
    match made {
        Ok(joined) => count(&bytes_of(&joined.table)),
        Err(r) => (r, 0),
    }
}

// -------------------------------------------------------------- listing

/// The longest text: its first line, and 98 lines of a number of one digit in
/// ten of them and two in the others, a cost of eleven and 1,023 labels of five.
pub const TEXT_BYTES: usize = "readings 98\n".len() + 98 * ("97 -1024000000\n".len() + 1_023 * " 65534".len()) - 10;

/// The refusal of a listing and its text, a code being the bytes of its file.
fn listed(left: &[u8], right: &[u8], code: &[u8]) -> (u32, String) {
    let mut table = vec![0; TABLE_BYTES];
    let mut origins = vec![0; JOIN_ORIGINS];
    let mut work = vec![0; WORK_STATES];
    let (r, length) = compose(left, right, &mut table, &mut origins, &mut work);
    if r != 0 {
        return refused(r);
    }
    if code.len() % 2 != 0 {
        return refused(9);
    }
    let code: Vec<u16> = (0..code.len() / 2).map(|i| two(code, 2 * i)).collect();
    let mut lattice = vec![0; TABLE_BYTES];
    let joined = &table[..length as usize];
    let (r, length) = apply(&code, joined, &mut lattice, &mut origins, &mut work);
    if r != 0 {
        return refused(r);
    }
    (0, text_of(&lattice[..length as usize]))
}

/// The cascade's: both tables are tested before the code.
fn cascade_listed(left: &[u8], right: &[u8], code: &[u8]) -> (u32, String) {
    let (a, b) = match parse(left).and_then(|a| Ok((a, parse(right)?))) {
        Ok(both) => both,
        Err(r) => return refused(r),
    };
    let labels: Vec<u16> = (0..code.len() / 2).map(|i| two(code, 2 * i)).collect();
    if code.len() % 2 != 0 || labels.len() > MAX_CODE || labels.iter().any(|&x| x == 0 || x == BARRED) {
        return refused(9);
    }
    match cascaded(&a, &b, &labels) {
        Ok(joined) => (0, text_of(&bytes_of(&joined.table))),
        Err(r) => refused(r),
    }
}

fn refused(r: u32) -> (u32, String) {
    (r, format!("refused {r}\n"))
}

/// The count of a table and its paths below it, as text.
fn text_of(bytes: &[u8]) -> String {
    let (r, n) = count(bytes);
    if r == 14 {
        return "readings endless\n".to_string();
    }
    if n as usize == MANY {
        return "readings 99+\n".to_string();
    }
    let mut text = format!("readings {n}\n");
    for k in 0..n {
        let (mut arcs, mut labels) = (vec![0; PATH_ARCS], vec![0; PATH_ARCS]);
        let (_, told) = nth(bytes, k, &mut arcs, &mut labels);
        text += &format!("{k} {}", told.0);
        for x in &labels[..told.2 as usize] {
            text += &format!(" {x}");
        }
        text += "\n";
    }
    text
}

/// What the listing program prints for the contents of its three files.
pub fn listing(left: &[u8], right: &[u8], code: &[u8]) -> String {
    let up_to = |x: &[u8]| x[..x.len().min(65_536)].to_vec();
    listed(&up_to(left), &up_to(right), &up_to(code)).1
}

/// The listing as a call: its refusal, the text's length, and the refusal
/// that the text says. A buffer that is too short stays as it was, before all
/// else; nothing else refuses the call.
pub fn list(left: &[u8], right: &[u8], code: &[u8], out: &mut [u8]) -> (u32, u32, u32) {
    if out.len() < TEXT_BYTES {
        return (10, 0, 0);
    }
    let (said, text) = listed(left, right, code);
    fill(out, text.as_bytes());
    (0, text.len() as u32, said)
}

/// The cascade's listing as a call, lent and answered in the same way.
pub fn cascade_list(left: &[u8], right: &[u8], code: &[u8], out: &mut [u8]) -> (u32, u32, u32) {
    if out.len() < TEXT_BYTES {
        return (10, 0, 0);
    }
    let (said, text) = cascade_listed(left, right, code);
    fill(out, text.as_bytes());
    (0, text.len() as u32, said)
}

// ------------------------------------------------- brute-force enumeration

/// All accepting paths of at most `most` arcs, by plain search from the
/// start, optionally only those that fit a given string. In path order.
/// None when more than `budget` steps are needed.
pub fn all_paths(
    t: &Table,
    reads: Option<&[u16]>,
    most: usize,
    budget: &mut usize,
) -> Option<Vec<Vec<u16>>> {
    fn go(
        t: &Table,
        state: usize,
        reads: Option<&[u16]>,
        most: usize,
        budget: &mut usize,
        path: &mut Vec<u16>,
        found: &mut Vec<Vec<u16>>,
    ) -> Option<()> {
        if *budget == 0 {
            return None;
        }
        *budget -= 1;
        if reads.map_or(true, |x| x.is_empty()) && t.final_weight(state).is_some() {
            found.push(path.clone());
        }
        if path.len() == most {
            return Some(());
        }
        for (i, a) in t.arcs.iter().enumerate() {
            if a.source != state {
                continue;
            }
            let rest = match reads {
                Some(x) if a.input != 0 => match x.split_first() {
                    Some((first, rest)) if fits(t, a, *first) => Some(rest),
                    _ => continue,
                },
                same => same,
            };
            path.push(i as u16);
            go(t, a.target, rest, most, budget, path, found)?;
            path.pop();
        }
        Some(())
    }
    let mut found = Vec::new();
    go(t, t.start, reads, most, budget, &mut Vec::new(), &mut found)?;
    Some(found)
}

/// All pairs of accepting paths of at most `most` arcs each: the left one
/// fits the code, the right one fits what the left one then writes. Neither
/// composition nor a lattice is used.
pub fn all_pairs(
    left: &Table,
    right: &Table,
    code: &[u16],
    most: usize,
    budget: &mut usize,
) -> Option<Vec<(Vec<u16>, Vec<u16>)>> {
    let mut found = Vec::new();
    for l in all_paths(left, Some(code), most, budget)? {
        let middle = path_passes(left, &l, code);
        for r in all_paths(right, Some(&middle), most, budget)? {
            found.push((l.clone(), r));
        }
    }
    Some(found)
}
