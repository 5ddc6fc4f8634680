// Lent buffers through the library's calls, stated outright and not by comparison: a table read and written again with
// something left behind the runs, and each buffer of a call one cell too short.

use crate::cases::{bundles, large, worked, Draft};
use crate::model::{COST_CELLS, JOIN_ORIGINS, LATTICE_ORIGINS, PATH_ARCS, READ_FIELDS, READ_FINALS, READ_WEIGHTS, TABLE_BYTES, WORK_STATES};
use crate::other;
use crate::rng::Rng;

type Stated = Result<(), String>;

/// A cell of a buffer, and what it holds before each call.
trait Cell: Copy + PartialEq {
    const DIRT: Self;
    const ZERO: Self;
}
impl Cell for u8 {
    const DIRT: u8 = 0xA5;
    const ZERO: u8 = 0;
}
impl Cell for u16 {
    const DIRT: u16 = 0xA5A5;
    const ZERO: u16 = 0;
}
impl Cell for u32 {
    const DIRT: u32 = 0xA5A5_A5A5;
    const ZERO: u32 = 0;
}
impl Cell for i32 {
    const DIRT: i32 = -0x5A5A_5A5B;
    const ZERO: i32 = 0;
}
impl Cell for i64 {
    const DIRT: i64 = -0x5A5A_5A5A_5A5A_5A5B;
    const ZERO: i64 = 0;
}

fn dirty<T: Cell>(length: usize) -> Vec<T> {
    vec![T::DIRT; length]
}

fn kept<T: Cell>(buffer: &[T]) -> bool {
    buffer.iter().all(|&x| x == T::DIRT)
}

fn state(what: &str, holds: bool) -> Stated {
    if holds { Ok(()) } else { Err(what.to_string()) }
}

/// The four buffers of reading, with cells behind their least lengths.
#[derive(Clone, PartialEq)]
struct Four {
    fs: Vec<u16>,
    fw: Vec<i32>,
    fields: Vec<u16>,
    aw: Vec<i32>,
}

impl Four {
    fn dirty(n: [usize; 4]) -> Four {
        Four { fs: dirty(n[0]), fw: dirty(n[1]), fields: dirty(n[2]), aw: dirty(n[3]) }
    }
    fn read(&mut self, bytes: &[u8]) -> (u32, [u32; 4]) {
        other::read(bytes, &mut self.fs, &mut self.fw, &mut self.fields, &mut self.aw)
    }
    fn write(&self, head: [u32; 4], out: &mut [u8]) -> (u32, u32) {
        other::write(head, &self.fs, &self.fw, &self.fields, &self.aw, out)
    }
    fn kept(&self) -> bool {
        kept(&self.fs) && kept(&self.fw) && kept(&self.fields) && kept(&self.aw)
    }
}

const READ: [usize; 4] = [READ_FINALS, READ_FINALS, READ_FIELDS, READ_WEIGHTS];

/// These cells, with `behind` in those behind them.
fn runs<T: Cell>(length: usize, behind: T, items: Vec<T>) -> Vec<T> {
    let mut out = items;
    out.resize(length, behind);
    out
}

/// What reading must leave of a table, cell by cell, with zeros or with dirt behind it.
fn four_of(d: &Draft, n: [usize; 4], dirt: bool) -> Four {
    fn last<T: Cell>(dirt: bool) -> T {
        if dirt { T::DIRT } else { T::ZERO }
    }
    Four {
        fs: runs(n[0], last(dirt), d.finals.iter().map(|x| x.0).collect()),
        fw: runs(n[1], last(dirt), d.finals.iter().map(|x| x.1).collect()),
        fields: runs(n[2], last(dirt), d.arcs.iter().flat_map(|a| a.0).collect()),
        aw: runs(n[3], last(dirt), d.arcs.iter().map(|a| a.1).collect()),
    }
}

/// Read: the numbers, the runs, zeros behind them. Written, with zeros and with dirt behind the runs: the same bytes,
/// zeros behind. Read again: the same.
fn both_ways(d: &Draft, spare: usize) -> Stated {
    let (bytes, n) = (d.bytes(), READ.map(|x| x + spare));
    let mut first = Four::dirty(n);
    let (refused, head) = first.read(&bytes);
    state("reading is not refused", refused == 0)?;
    state("reading tells the numbers", head == d.head.map(|x| x as u32))?;
    state("reading leaves the runs, zeros behind", first == four_of(d, n, false))?;
    for given in [first, four_of(d, n, true)] {
        let mut out = dirty::<u8>(TABLE_BYTES + spare);
        let (refused, length) = given.write(head, &mut out);
        state("writing is not refused", refused == 0)?;
        state("writing tells the length", length as usize == bytes.len())?;
        state("writing gives the bytes, zeros behind", out == runs(out.len(), 0, bytes.clone()))?;
        let mut again = Four::dirty(n);
        state("what is written is read as the same numbers", again.read(&out[..bytes.len()]) == (0, head))?;
        state("what is written is read as the same runs", again == four_of(d, n, false))?;
    }
    Ok(())
}

/// A call that is not refused with buffers of these lengths is refused by 10 with any one of them a cell short, and
/// keeps them all. `call` answers its refusal, and whether each number told is 0 and each buffer as it was.
fn one_short<const N: usize>(name: &str, least: [usize; N], call: impl Fn([usize; N]) -> (u32, bool)) -> Stated {
    state(&format!("{name} at the least lengths"), call(least).0 == 0)?;
    state(&format!("{name} with a cell more each"), call(least.map(|x| x + 1)).0 == 0)?;
    for i in 0..N {
        let mut n = least;
        n[i] -= 1;
        state(&format!("{name} with buffer {i} a cell short"), call(n) == (10, true))?;
    }
    Ok(())
}

fn short() -> Stated {
    let (left, right) = worked();
    let (l, r) = (left.bytes(), right.bytes());
    one_short("read", READ, |n| {
        let mut four = Four::dirty(n);
        let (refused, head) = four.read(&l);
        (refused, head == [0; 4] && four.kept())
    })?;
    let head = left.head.map(|x| x as u32);
    let [_, m, f, _] = head.map(|x| x as usize);
    let exact = [f, f, 4 * m, m];
    one_short("write", [TABLE_BYTES], |n| {
        let mut out = dirty(n[0]);
        let (refused, length) = four_of(&left, exact, false).write(head, &mut out);
        (refused, length == 0 && kept(&out))
    })?;
    for i in 0..4 {
        let mut n = exact;
        n[i] -= 1;
        let mut out = dirty(TABLE_BYTES);
        let told = four_of(&left, n, false).write(head, &mut out);
        state(&format!("write with run {i} a cell short"), told == (4, 0) && kept(&out))?;
    }
    one_short("compose", [TABLE_BYTES, JOIN_ORIGINS, WORK_STATES], |n| {
        let (mut table, mut origins, mut states) = (dirty(n[0]), dirty(n[1]), dirty(n[2]));
        let (refused, length) = other::compose(&l, &r, &mut table, &mut origins, &mut states);
        (refused, length == 0 && kept(&table) && kept(&origins) && kept(&states))
    })?;
    one_short("trim", [TABLE_BYTES, LATTICE_ORIGINS], |n| {
        let (mut out, mut origins) = (dirty(n[0]), dirty(n[1]));
        let (refused, length) = other::trim(&l, &mut out, &mut origins);
        (refused, length == 0 && kept(&out) && kept(&origins))
    })?;
    one_short("apply", [TABLE_BYTES, LATTICE_ORIGINS, WORK_STATES], |n| {
        let (mut lattice, mut origins, mut pairs) = (dirty(n[0]), dirty(n[1]), dirty(n[2]));
        let (refused, length) = other::apply(&[1, 3], &l, &mut lattice, &mut origins, &mut pairs);
        (refused, length == 0 && kept(&lattice) && kept(&origins) && kept(&pairs))
    })?;
    one_short("cascade", [TABLE_BYTES, JOIN_ORIGINS, WORK_STATES], |n| {
        let (mut table, mut origins, mut states) = (dirty(n[0]), dirty(n[1]), dirty(n[2]));
        let (refused, length) = other::cascade(&l, &r, &[1, 3], &mut table, &mut origins, &mut states);
        (refused, length == 0 && kept(&table) && kept(&origins) && kept(&states))
    })?;
    one_short("nth", [PATH_ARCS, PATH_ARCS], |n| {
        let (mut arcs, mut labels) = (dirty(n[0]), dirty(n[1]));
        let (refused, told) = other::nth(&l, 0, &mut arcs, &mut labels);
        (refused, told == (0, 0, 0) && kept(&arcs) && kept(&labels))
    })?;
    one_short("shortest", [PATH_ARCS, PATH_ARCS], |n| {
        let (mut arcs, mut labels) = (dirty(n[0]), dirty(n[1]));
        let (refused, told) = other::shortest(&l, &mut arcs, &mut labels);
        (refused, told == (0, 0, 0) && kept(&arcs) && kept(&labels))
    })?;
    one_short("distance", [COST_CELLS], |n| {
        let mut cells: Vec<i64> = dirty(n[0]);
        (other::distance(&l, &mut cells), kept(&cells))
    })
}

/// All of it.
pub fn stated() -> Stated {
    let (left, right) = worked();
    let none = Draft::new(1, 0, &[], &[]);
    let most = large(&mut Rng::new(1, 1), 1_024, 3_072, 5, 4);
    let all: Vec<(usize, i32)> = (0..1_024).map(|s| (s, if s % 2 == 0 { 1_000_000 - s as i32 } else { s as i32 - 1_000_001 })).collect();
    let finals = Draft::new(1_024, 1_023, &all, &[(7, 65_534, 0, 1_023, -1_000_000), (7, 0, 1, 0, 1_000_000), (8, 1, 0, 0, -1)]);
    for (name, d) in [
        ("left", left),
        ("right", right),
        ("no finals, no arcs", none),
        ("bundles", bundles(&[7, 9], 3, 4)),
        ("3,072 arcs", most),
        ("1,024 finals", finals),
    ] {
        for spare in [0, 5] {
            both_ways(&d, spare).map_err(|e| format!("{name}, {spare} cells to spare: {e}"))?;
        }
    }
    short()
}
