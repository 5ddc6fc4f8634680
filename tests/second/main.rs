// Compares the static library with the naive model, call by call and byte by
// byte: tests/second/run builds and runs it. Built with `--cfg have_all` it
// compares every call (library.rs has the finer choices);
// `--cfg mock` puts a second copy of the model in the place of the library,
// `--cfg planted` a faulty model in the place of the model (faults.py).
//
//   --seed N     seed of the cases; the default is printed
//   --cases N    how many cases (20,000)
//   --case K     case K of the seed alone
//   --out DIR    where a failing case is written (target/second)
//   --trace      print each case and each answer before the next one
//   --self       check the model by brute force; needs no library
//   --bench DIR  check the model on the workloads W1 to W4 and W1s to W4s in DIR
//
// Exit code 0 when all agree, 1 when not, 2 for a wrong option. Where a call
// ends the program itself, running.txt in DIR names the case.
#![allow(unexpected_cfgs)]

mod cases;
mod inner;
mod lent;
mod model;
mod near;
mod rng;

// The other side of a comparison: the library, or a second copy of the model.
#[cfg(mock)]
#[path = "model.rs"]
mod other;
#[cfg(not(mock))]
#[path = "library.rs"]
mod other;

// The model's side: the model, or a shared library that has it with a fault
// (faults.py writes planted.rs). What is handed on from call to call is made
// by the model without one.
#[cfg(planted)]
mod planted;
#[cfg(not(planted))]
use model as tried;
#[cfg(planted)]
use planted as tried;

use cases::Case;
use model::{bytes_of, parse, Table};
use rng::Rng;
use std::fmt::Debug;
use std::io::{Seek, Write};
use std::path::{Path, PathBuf};
use std::time::Instant;

const SEED: u64 = 20_240_229;
const CASES: usize = 20_000;

pub const CALLS: [&str; 15] = [
    "refusal", "read", "write", "compose", "trim", "apply", "count", "nth", "shortest", "readings", "list", "distance",
    "cascade", "cascade_readings", "cascade_list",
];

#[cfg(mock)]
const HAVE: [bool; 15] = [true; 15];
#[cfg(not(mock))]
const HAVE: [bool; 15] = other::HAVE;

/// Refusals are below this.
const REFUSALS: usize = 20;

/// The refusals each call can give.
const CAN: [&[u32]; 15] = [
    &[0, 1, 2, 3, 4, 5, 6, 7, 8],
    &[0, 1, 2, 3, 4, 5, 6, 7, 8, 10],
    &[0, 3, 4, 5, 6, 7, 8, 10],
    &[0, 1, 2, 3, 4, 5, 6, 7, 8, 18, 10, 11, 12, 13],
    &[0, 1, 2, 3, 4, 5, 6, 7, 8, 10],
    &[0, 1, 2, 3, 4, 5, 6, 7, 8, 9, 10, 11, 12],
    &[0, 1, 2, 3, 4, 5, 6, 7, 8, 14],
    &[0, 1, 2, 3, 4, 5, 6, 7, 8, 10, 14, 15],
    &[0, 1, 2, 3, 4, 5, 6, 7, 8, 10, 16, 19],
    &[0, 1, 2, 3, 4, 5, 6, 7, 8, 18, 9, 11, 12, 13, 14],
    &[0, 1, 2, 3, 4, 5, 6, 7, 8, 18, 9, 10, 11, 12, 13],
    &[0, 1, 2, 3, 4, 5, 6, 7, 8, 10, 19],
    &[0, 1, 2, 3, 4, 5, 6, 7, 8, 9, 10, 11, 12, 13],
    &[0, 1, 2, 3, 4, 5, 6, 7, 8, 9, 11, 12, 13, 14],
    &[0, 1, 2, 3, 4, 5, 6, 7, 8, 9, 10, 11, 12, 13],
];

// ---------------------------------------------------------- lent buffers

trait Number: Copy + Default + PartialEq {
    fn of(x: u64) -> Self;
    fn bytes(self) -> Vec<u8>;
}
impl Number for u8 {
    fn of(x: u64) -> u8 {
        x as u8
    }
    fn bytes(self) -> Vec<u8> {
        vec![self]
    }
}
impl Number for u16 {
    fn of(x: u64) -> u16 {
        x as u16
    }
    fn bytes(self) -> Vec<u8> {
        self.to_le_bytes().to_vec()
    }
}
impl Number for u32 {
    fn of(x: u64) -> u32 {
        x as u32
    }
    fn bytes(self) -> Vec<u8> {
        self.to_le_bytes().to_vec()
    }
}
impl Number for i32 {
    fn of(x: u64) -> i32 {
        x as i32
    }
    fn bytes(self) -> Vec<u8> {
        self.to_le_bytes().to_vec()
    }
}
impl Number for i64 {
    fn of(x: u64) -> i64 {
        x as i64
    }
    fn bytes(self) -> Vec<u8> {
        self.to_le_bytes().to_vec()
    }
}

/// One lent buffer, once for each side, with a margin that must stay as it
/// was on both ends.
struct Lent<T> {
    name: &'static str,
    margin: usize,
    length: usize,
    before: Vec<T>,
    model: Vec<T>,
    other: Vec<T>,
}

const MARGIN: usize = 16;
const TILE: usize = 251;

impl<T: Number> Lent<T> {
    fn new(rng: &mut Rng, name: &'static str, length: usize) -> Lent<T> {
        let margin = MARGIN + rng.below(4);
        let whole = margin + length + MARGIN;
        let style = rng.below(8);
        let tile: Vec<T> = (0..TILE)
            .map(|_| match style {
                0 => T::of(0),
                1 => T::of(u64::MAX),
                _ => T::of(rng.next()),
            })
            .collect();
        let mut before = Vec::with_capacity(whole + TILE);
        while before.len() < whole {
            before.extend_from_slice(&tile);
        }
        before.truncate(whole);
        let (model, other) = (before.clone(), before.clone());
        Lent { name, margin, length, before, model, other }
    }
    fn m(&mut self) -> &mut [T] {
        &mut self.model[self.margin..self.margin + self.length]
    }
    fn o(&mut self) -> &mut [T] {
        &mut self.other[self.margin..self.margin + self.length]
    }
}

/// What the comparison needs of a buffer of any width.
trait Seen {
    fn same(&self) -> bool;
    fn tell(&self) -> String;
    fn dump(&self, files: &mut Vec<(String, Vec<u8>)>);
}

impl<T: Number + Debug> Seen for Lent<T> {
    fn same(&self) -> bool {
        self.model == self.other
    }
    fn tell(&self) -> String {
        let Some(i) = (0..self.model.len()).find(|&i| self.model[i] != self.other[i]) else {
            return format!("{} (length {}): same", self.name, self.length);
        };
        let differ = (0..self.model.len()).filter(|&i| self.model[i] != self.other[i]).count();
        let place = i as i64 - self.margin as i64;
        let outside = if place < 0 || place >= self.length as i64 { " OUTSIDE the buffer" } else { "" };
        format!(
            "{} (length {}): {differ} places differ, first {place}{outside}: before {:?}, model {:?}, other {:?}",
            self.name, self.length, self.before[i], self.model[i], self.other[i]
        )
    }
    fn dump(&self, files: &mut Vec<(String, Vec<u8>)>) {
        let inside = |x: &Vec<T>| -> Vec<u8> {
            x[self.margin..self.margin + self.length].iter().flat_map(|y| y.bytes()).collect()
        };
        files.push((format!("{}.before", self.name), inside(&self.before)));
        files.push((format!("{}.model", self.name), inside(&self.model)));
        files.push((format!("{}.other", self.name), inside(&self.other)));
    }
}

// ------------------------------------------------------------ comparing

struct Failure {
    call: &'static str,
    report: String,
    files: Vec<(String, Vec<u8>)>,
}

struct Run {
    rng: Rng,
    seen: [[u64; REFUSALS]; 15],
    trace: bool,
}

type Outcome = Result<(), Failure>;

fn words(x: &[u16]) -> Vec<u8> {
    x.iter().flat_map(|y| y.to_le_bytes()).collect()
}

fn longs(x: &[u32]) -> Vec<u8> {
    x.iter().flat_map(|y| y.to_le_bytes()).collect()
}

fn signed(x: &[i32]) -> Vec<u8> {
    x.iter().flat_map(|y| y.to_le_bytes()).collect()
}

impl Run {
    /// Lengths to lend: the least, longer, or (for one of them) too short.
    fn lengths<const N: usize>(&mut self, least: [usize; N]) -> [usize; N] {
        let mut out = least;
        for x in &mut out {
            if self.rng.chance(1, 3) {
                *x += self.rng.pick(&[1, 2, 7, 100]);
            }
        }
        if self.rng.chance(1, 9) {
            let which = self.rng.below(N);
            out[which] = match self.rng.below(6) {
                0 => 0,
                1 => self.rng.below(least[which]),
                _ => least[which] - 1,
            };
        }
        out
    }

    fn lend<T: Number>(&mut self, name: &'static str, length: usize) -> Lent<T> {
        Lent::new(&mut self.rng, name, length)
    }

    #[rustfmt::skip]
    fn compare<A: PartialEq + Debug>(
        &mut self,
        call: usize,
        refused: u32,
        answers: (A, A),
        inputs: &[(&str, &[u8])],
        buffers: &[&dyn Seen],
    ) -> Outcome {
        if let Some(x) = self.seen[call].get_mut(refused as usize) {
            *x += 1;
        }
        if self.trace {
            println!("  {}: {:?}", CALLS[call], answers.0);
        }
        if answers.0 == answers.1 && buffers.iter().all(|b| b.same()) {
            return Ok(());
        }
        let mut report = format!("call: {}\nmodel answers {:?}\nother answers {:?}\n", CALLS[call], answers.0, answers.1);
        let mut files = Vec::new();
        for (name, bytes) in inputs {
            report += &format!("input {name}: {} bytes\n", bytes.len());
            files.push((format!("in.{name}"), bytes.to_vec()));
        }
        for b in buffers {
            report += &format!("buffer {}\n", b.tell());
            b.dump(&mut files);
        }
        Err(Failure { call: CALLS[call], report, files })
    }

    fn refusal(&mut self, bytes: &[u8]) -> Outcome {
        if !HAVE[0] {
            return Ok(());
        }
        let m = tried::refusal(bytes);
        let o = other::refusal(bytes);
        self.compare(0, m, (m, o), &[("table", bytes)], &[])
    }

    fn read(&mut self, bytes: &[u8]) -> Outcome {
        if !HAVE[1] {
            return Ok(());
        }
        let n = self.lengths([model::READ_FINALS, model::READ_FINALS, model::READ_FIELDS, model::READ_WEIGHTS]);
        let mut fs = self.lend::<u16>("final_states", n[0]);
        let mut fw = self.lend::<i32>("final_weights", n[1]);
        let mut fields = self.lend::<u16>("fields", n[2]);
        let mut aw = self.lend::<i32>("arc_weights", n[3]);
        let m = tried::read(bytes, fs.m(), fw.m(), fields.m(), aw.m());
        let o = other::read(bytes, fs.o(), fw.o(), fields.o(), aw.o());
        self.compare(1, m.0, (m, o), &[("table", bytes)], &[&fs, &fw, &fields, &aw])
    }

    fn write(&mut self, t: &Table) -> Outcome {
        if !HAVE[2] {
            return Ok(());
        }
        let given = self.given(t);
        let n = self.lengths([model::TABLE_BYTES]);
        let mut out = self.lend::<u8>("out", n[0]);
        let m = tried::write(given.head, &given.fs, &given.fw, &given.fields, &given.aw, out.m());
        let o = other::write(given.head, &given.fs, &given.fw, &given.fields, &given.aw, out.o());
        let inputs: [(&str, &[u8]); 5] = [
            ("head", &longs(&given.head)),
            ("final_states", &words(&given.fs)),
            ("final_weights", &signed(&given.fw)),
            ("fields", &words(&given.fields)),
            ("arc_weights", &signed(&given.aw)),
        ];
        self.compare(2, m.0, (m, o), &inputs, &[&out])
    }

    fn compose(&mut self, left: &[u8], right: &[u8]) -> Outcome {
        if !HAVE[3] {
            return Ok(());
        }
        let n = self.lengths([model::TABLE_BYTES, model::JOIN_ORIGINS, model::WORK_STATES]);
        let mut table = self.lend::<u8>("table", n[0]);
        let mut origins = self.lend::<u16>("origins", n[1]);
        let mut states = self.lend::<u32>("states", n[2]);
        let m = tried::compose(left, right, table.m(), origins.m(), states.m());
        let o = other::compose(left, right, table.o(), origins.o(), states.o());
        self.compare(3, m.0, (m, o), &[("left", left), ("right", right)], &[&table, &origins, &states])
    }

    fn trim(&mut self, bytes: &[u8]) -> Outcome {
        if !HAVE[4] {
            return Ok(());
        }
        let n = self.lengths([model::TABLE_BYTES, model::LATTICE_ORIGINS]);
        let mut out = self.lend::<u8>("out", n[0]);
        let mut origins = self.lend::<u16>("origins", n[1]);
        let m = tried::trim(bytes, out.m(), origins.m());
        let o = other::trim(bytes, out.o(), origins.o());
        self.compare(4, m.0, (m, o), &[("table", bytes)], &[&out, &origins])
    }

    fn apply(&mut self, code: &[u16], bytes: &[u8]) -> Outcome {
        if !HAVE[5] {
            return Ok(());
        }
        let n = self.lengths([model::TABLE_BYTES, model::LATTICE_ORIGINS, model::WORK_STATES]);
        let mut lattice = self.lend::<u8>("lattice", n[0]);
        let mut origins = self.lend::<u16>("origins", n[1]);
        let mut pairs = self.lend::<u32>("pairs", n[2]);
        let m = tried::apply(code, bytes, lattice.m(), origins.m(), pairs.m());
        let o = other::apply(code, bytes, lattice.o(), origins.o(), pairs.o());
        let inputs: [(&str, &[u8]); 2] = [("string", &words(code)), ("table", bytes)];
        self.compare(5, m.0, (m, o), &inputs, &[&lattice, &origins, &pairs])
    }

    fn count(&mut self, bytes: &[u8]) -> Outcome {
        if !HAVE[6] {
            return Ok(());
        }
        let m = tried::count(bytes);
        let o = other::count(bytes);
        self.compare(6, m.0, (m, o), &[("table", bytes)], &[])
    }

    fn nth(&mut self, bytes: &[u8], k: u32) -> Outcome {
        if !HAVE[7] {
            return Ok(());
        }
        let n = self.lengths([model::PATH_ARCS, model::PATH_ARCS]);
        let mut arcs = self.lend::<u16>("arcs", n[0]);
        let mut labels = self.lend::<u16>("labels", n[1]);
        let m = tried::nth(bytes, k, arcs.m(), labels.m());
        let o = other::nth(bytes, k, arcs.o(), labels.o());
        let inputs: [(&str, &[u8]); 2] = [("table", bytes), ("k", &longs(&[k]))];
        self.compare(7, m.0, (m, o), &inputs, &[&arcs, &labels])
    }

    fn shortest(&mut self, bytes: &[u8]) -> Outcome {
        if !HAVE[8] {
            return Ok(());
        }
        let n = self.lengths([model::PATH_ARCS, model::PATH_ARCS]);
        let mut arcs = self.lend::<u16>("arcs", n[0]);
        let mut labels = self.lend::<u16>("labels", n[1]);
        let m = tried::shortest(bytes, arcs.m(), labels.m());
        let o = other::shortest(bytes, arcs.o(), labels.o());
        self.compare(8, m.0, (m, o), &[("table", bytes)], &[&arcs, &labels])
    }

    fn distance(&mut self, bytes: &[u8]) -> Outcome {
        if !HAVE[11] {
            return Ok(());
        }
        let n = self.lengths([model::COST_CELLS]);
        let mut cells = self.lend::<i64>("cells", n[0]);
        let m = tried::distance(bytes, cells.m());
        let o = other::distance(bytes, cells.o());
        self.compare(11, m, (m, o), &[("table", bytes)], &[&cells])
    }

    #[rustfmt::skip]
    fn readings(&mut self, left: &[u8], right: &[u8], code: &[u16]) -> Outcome {
        if !HAVE[9] {
            return Ok(());
        }
        let x = tried::readings(left, right, code);
        let y = other::readings(left, right, code);
        let inputs: [(&str, &[u8]); 3] = [("left", left), ("right", right), ("string", &words(code))];
        self.compare(9, x.0, (x, y), &inputs, &[])
    }

    /// The bytes of the code as a file has them, now and then with one more.
    fn code_bytes(&mut self, code: &[u16]) -> Vec<u8> {
        let mut code = words(code);
        if self.rng.chance(1, 12) {
            code.push(self.rng.next() as u8);
        }
        code
    }

    fn list(&mut self, left: &[u8], right: &[u8], code: &[u16]) -> Outcome {
        if !HAVE[10] {
            return Ok(());
        }
        let code = self.code_bytes(code);
        let n = self.lengths([model::TEXT_BYTES]);
        let mut out = self.lend::<u8>("text", n[0]);
        let m = tried::list(left, right, &code, out.m());
        let o = other::list(left, right, &code, out.o());
        let inputs: [(&str, &[u8]); 3] = [("left", left), ("right", right), ("code", &code)];
        self.compare(10, m.0.max(m.2), (m, o), &inputs, &[&out])
    }

    fn cascade(&mut self, left: &[u8], right: &[u8], code: &[u16]) -> Outcome {
        if !HAVE[12] {
            return Ok(());
        }
        let n = self.lengths([model::TABLE_BYTES, model::JOIN_ORIGINS, model::WORK_STATES]);
        let mut table = self.lend::<u8>("table", n[0]);
        let mut origins = self.lend::<u16>("origins", n[1]);
        let mut states = self.lend::<u32>("states", n[2]);
        let m = tried::cascade(left, right, code, table.m(), origins.m(), states.m());
        let o = other::cascade(left, right, code, table.o(), origins.o(), states.o());
        let inputs: [(&str, &[u8]); 3] = [("left", left), ("right", right), ("string", &words(code))];
        self.compare(12, m.0, (m, o), &inputs, &[&table, &origins, &states])
    }

    fn cascade_readings(&mut self, left: &[u8], right: &[u8], code: &[u16]) -> Outcome {
        if !HAVE[13] {
            return Ok(());
        }
        let x = tried::cascade_readings(left, right, code);
        let y = other::cascade_readings(left, right, code);
        let inputs: [(&str, &[u8]); 3] = [("left", left), ("right", right), ("string", &words(code))];
        self.compare(13, x.0, (x, y), &inputs, &[])
    }

    fn cascade_list(&mut self, left: &[u8], right: &[u8], code: &[u16]) -> Outcome {
        if !HAVE[14] {
            return Ok(());
        }
        let code = self.code_bytes(code);
        let n = self.lengths([model::TEXT_BYTES]);
        let mut out = self.lend::<u8>("text", n[0]);
        let m = tried::cascade_list(left, right, &code, out.m());
        let o = other::cascade_list(left, right, &code, out.o());
        let inputs: [(&str, &[u8]); 3] = [("left", left), ("right", right), ("code", &code)];
        self.compare(14, m.0.max(m.2), (m, o), &inputs, &[&out])
    }

    /// What a table's writing is given: its numbers, with something behind
    /// them, and in half of the cases damaged once or twice.
    fn given(&mut self, t: &Table) -> Given {
        let rng = &mut self.rng;
        let mut g = Given {
            head: [t.states, t.arcs.len(), t.finals.len(), t.start].map(|x| x as u32),
            fs: t.finals.iter().map(|x| x.0 as u16).collect(),
            fw: t.finals.iter().map(|x| x.1 as i32).collect(),
            fields: t
                .arcs
                .iter()
                .flat_map(|a| [a.source as u16, a.input, a.output, a.target as u16])
                .collect(),
            aw: t.arcs.iter().map(|a| a.weight as i32).collect(),
        };
        let damages = rng.pick(&[0, 0, 1, 1, 2]);
        for _ in 0..damages {
            let n = t.states as u32;
            match rng.below(16) {
                0 => g.head[0] = rng.pick(&[0, 1_025, 65_536 + n, u32::MAX]),
                1 => g.head[1] = rng.pick(&[3_073, 65_536, 65_536 + t.arcs.len() as u32, u32::MAX]),
                2 => g.head[2] = rng.pick(&[n + 1, 65_536, u32::MAX]),
                3 => g.head[3] = rng.pick(&[n, n + 1, 65_536, u32::MAX]),
                4 => g.head[1] = g.head[1].wrapping_add(1),
                5 => g.head[2] = g.head[2].wrapping_add(1),
                6 => g.fs.truncate(rng.below(g.fs.len() + 1)),
                7 => g.fw.truncate(rng.below(g.fw.len() + 1)),
                8 => g.fields.truncate(rng.below(g.fields.len() + 1)),
                9 => g.aw.truncate(rng.below(g.aw.len() + 1)),
                10 if !g.fs.is_empty() => {
                    let i = rng.below(g.fs.len());
                    g.fs[i] = rng.pick(&[0, n as u16, 65_535]);
                }
                11 if !g.fields.is_empty() => {
                    let i = rng.below(g.fields.len());
                    g.fields[i] = rng.pick(&[0, n as u16, 65_535]);
                }
                12 if !g.fields.is_empty() => {
                    let i = rng.below(g.fields.len());
                    g.fields[i] = 65_535;
                }
                13 if !g.fw.is_empty() => {
                    let i = rng.below(g.fw.len());
                    g.fw[i] = rng.pick(&EDGES);
                }
                14 if !g.aw.is_empty() => {
                    let i = rng.below(g.aw.len());
                    g.aw[i] = rng.pick(&EDGES);
                }
                15 if g.fields.len() > 4 => {
                    let last = g.fields.len() / 4 * 4 - 4;
                    g.fields.swap(0, last);
                }
                _ => {}
            }
        }
        // Behind the runs; where a run was cut this may make it whole again.
        if rng.chance(1, 2) {
            for _ in 0..rng.below(6) {
                g.fs.push(rng.next() as u16);
                g.aw.push(rng.next() as i32);
            }
            for _ in 0..rng.below(6) {
                g.fw.push(rng.next() as i32);
                g.fields.push(rng.next() as u16);
            }
        }
        g
    }

    /// Numbers k worth asking for.
    fn ks(&mut self, bytes: &[u8]) -> Vec<u32> {
        let (_, count) = model::count(bytes);
        let below = self.rng.below(count.max(1) as usize) as u32;
        let edge = self.rng.pick(&[0, count, count, count.max(1) - 1, 98, 99, 100, u32::MAX]);
        vec![below, edge]
    }

    /// All calls on one case. Later calls get what the model's earlier ones
    /// made, so a table handed on is the same for both sides.
    fn case(&mut self, case: &Case) -> Outcome {
        let (left, right, code) = (&case.left[..], &case.right[..], &case.code[..]);
        self.refusal(left)?;
        self.refusal(right)?;
        self.read(left)?;
        self.read(right)?;
        let (a, b) = (parse(left).ok(), parse(right).ok());
        if let Some(t) = a.as_ref().or(b.as_ref()) {
            self.write(t)?;
        }
        self.compose(left, right)?;
        self.trim(left)?;
        self.apply(code, left)?;
        self.count(left)?;
        for k in self.ks(left) {
            self.nth(left, k)?;
        }
        self.shortest(left)?;
        self.distance(left)?;
        if let (Some(a), Some(b)) = (a, b) {
            self.trim(right)?;
            self.apply(code, right)?;
            self.count(right)?;
            self.shortest(right)?;
            self.distance(right)?;
            if let Ok(joined) = model::join(&a, &b) {
                let joined_bytes = bytes_of(&joined.table);
                self.trim(&joined_bytes)?;
                self.apply(code, &joined_bytes)?;
                self.count(&joined_bytes)?;
                let good = code.len() <= 64 && !code.contains(&0) && !code.contains(&65_535);
                let lattice = if good { model::lattice(code, &joined.table).ok() } else { None };
                if let Some((whole, _)) = lattice {
                    let small = bytes_of(&model::trimmed(&whole).0);
                    self.count(&small)?;
                    for k in self.ks(&small) {
                        self.nth(&small, k)?;
                    }
                    self.shortest(&small)?;
                    self.distance(&small)?;
                }
            }
        }
        self.readings(left, right, code)?;
        self.list(left, right, code)?;
        self.cascade(left, right, code)?;
        self.cascade_readings(left, right, code)?;
        self.cascade_list(left, right, code)
    }
}

struct Given {
    head: [u32; 4],
    fs: Vec<u16>,
    fw: Vec<i32>,
    fields: Vec<u16>,
    aw: Vec<i32>,
}

/// Weights to be written on either side of both ends.
const EDGES: [i32; 8] = [1_000_000, 1_000_001, -1_000_000, -1_000_001, -1, 0, i32::MAX, i32::MIN];

// ---------------------------------------------------------------- driver

fn save(dir: &Path, case: &Case, failure: &Failure, command: &str) -> std::io::Result<()> {
    std::fs::create_dir_all(dir)?;
    std::fs::write(dir.join("left.tab"), &case.left)?;
    std::fs::write(dir.join("right.tab"), &case.right)?;
    std::fs::write(dir.join("code.lab"), words(&case.code))?;
    for (name, bytes) in &failure.files {
        std::fs::write(dir.join(format!("{}.{name}", failure.call)), bytes)?;
    }
    let report = format!("case: {}\n{}reproduce: {command}\n", case.name, failure.report);
    std::fs::write(dir.join("report.txt"), report)
}

fn bench(dir: &str) -> Result<(), String> {
    for w in ["W1", "W2", "W3", "W4", "W1s", "W2s", "W3s", "W4s"] {
        let file = |name: &str| {
            let path = Path::new(dir).join(w).join(name);
            std::fs::read(&path).map_err(|e| format!("{}: {e}", path.display()))
        };
        let (left, right, code) = (file("left.tab")?, file("right.tab")?, file("code.lab")?);
        let text = model::listing(&left, &right, &code);
        if text.as_bytes() != file("stdout")? {
            return Err(format!("{w}: the listing differs: {text}"));
        }
        let code: Vec<u16> = code.chunks(2).map(|x| u16::from_le_bytes([x[0], x[1]])).collect();
        let (a, b) = (parse(&left), parse(&right));
        let joined = model::join(&a.map_err(|r| r.to_string())?, &b.map_err(|r| r.to_string())?);
        let joined = joined.map_err(|r| format!("{w}: compose refuses {r}"))?;
        if bytes_of(&joined.table) != file("joined.tab")? {
            return Err(format!("{w}: the joined table differs"));
        }
        let whole = model::lattice(&code, &joined.table).map_err(|r| format!("{w}: apply {r}"))?;
        if bytes_of(&model::trimmed(&whole.0).0) != file("lattice.tab")? {
            return Err(format!("{w}: the lattice differs"));
        }
        println!("{w}: joined table, lattice and listing as given");
    }
    Ok(())
}

fn main() {
    let mut seed = SEED;
    let mut count = CASES;
    let mut only: Option<usize> = None;
    let mut out = PathBuf::from("target/second");
    let (mut selfcheck, mut trace) = (false, false);
    let mut bench_dir = None;
    let mut args = std::env::args().skip(1);
    while let Some(arg) = args.next() {
        let mut value = || args.next().unwrap_or_else(|| usage(&format!("{arg} needs a value")));
        match arg.as_str() {
            "--seed" => seed = value().parse().unwrap_or_else(|_| usage("--seed N")),
            "--cases" => count = value().parse().unwrap_or_else(|_| usage("--cases N")),
            "--case" => only = Some(value().parse().unwrap_or_else(|_| usage("--case K"))),
            "--out" => out = PathBuf::from(value()),
            "--bench" => bench_dir = Some(value()),
            "--self" => selfcheck = true,
            "--trace" => trace = true,
            x => usage(&format!("unknown option {x}")),
        }
    }
    if let Some(dir) = bench_dir {
        if let Err(e) = bench(&dir) {
            eprintln!("{e}");
            std::process::exit(1);
        }
        return;
    }
    let began = Instant::now();
    let range = match only {
        Some(k) => k..k + 1,
        None => 0..count,
    };
    println!("seed {seed}, cases {} to {}", range.start, range.end.max(1) - 1);
    // Deep but bounded recursion: one frame for each arc of a path.
    let work = move || {
        if selfcheck {
            check_model(seed, range, trace)
        } else {
            check_library(seed, range, trace, &out)
        }
    };
    let thread = std::thread::Builder::new().stack_size(64 << 20).spawn(work).unwrap();
    let good = thread.join().unwrap_or(false);
    println!("{:.1} seconds", began.elapsed().as_secs_f64());
    std::process::exit(if good { 0 } else { 1 });
}

fn usage(message: &str) -> ! {
    eprintln!("{message}");
    eprintln!("options: --seed N --cases N --case K --out DIR --self --bench DIR --trace");
    std::process::exit(2);
}

/// The longest text of all takes a buffer of the least length to its last
/// byte; with one byte less the call is refused and the buffer kept.
fn longest_text(list: fn(&[u8], &[u8], &[u8], &mut [u8]) -> (u32, u32, u32)) -> Result<(), String> {
    let (left, right) = (cases::Draft::new(1, 0, &[(0, 0)], &[]).bytes(), cases::longest().bytes());
    let mut text = vec![1; 602_996];
    let told = list(&left, &right, &[], &mut text);
    if told != (0, 602_996, 0) || text != model::listing(&left, &right, &[]).as_bytes() {
        return Err(format!("in the least room {told:?}"));
    }
    let mut short = vec![1; 602_995];
    let told = list(&left, &right, &[], &mut short);
    if told != (10, 0, 0) || short.iter().any(|&x| x != 1) {
        return Err(format!("in a byte less {told:?}"));
    }
    Ok(())
}

fn check_library(seed: u64, range: std::ops::Range<usize>, trace: bool, out: &Path) -> bool {
    let linked: Vec<_> = (0..CALLS.len()).filter(|&i| HAVE[i]).map(|i| CALLS[i]).collect();
    if linked.is_empty() {
        eprintln!("no call is linked: build with --cfg have_first, have_all or mock, or use --self");
        return false;
    }
    println!("calls: {}", linked.join(" "));
    if let Err(e) = lent::stated() {
        println!("lent buffers FAILED: {e}");
        return false;
    }
    println!("lent buffers: read, written and read again; each a cell short");
    for (call, list) in [(10, other::list as fn(&[u8], &[u8], &[u8], &mut [u8]) -> _), (14, other::cascade_list)] {
        if !HAVE[call] {
            continue;
        }
        if let Err(e) = longest_text(list) {
            println!("the longest text of {} FAILED: {e}", CALLS[call]);
            return false;
        }
    }
    let mut fixed: Vec<_> = cases::fixed().into_iter().map(Some).collect();
    let single = range.len() == 1;
    let mut run = Run { rng: Rng::new(seed, 0), seen: [[0; REFUSALS]; 15], trace };
    let program = std::env::args().next().unwrap_or_default();
    // Names the case being run; it is left behind if a call ends the program.
    let running = out.join("running.txt");
    let mut note = std::fs::create_dir_all(out).and_then(|_| std::fs::File::create(&running)).ok();
    for k in range.clone() {
        if let Some(file) = &mut note {
            let line = format!("reproduce: {program} --trace --seed {seed} --case {k}\n");
            let _ = file.rewind().and_then(|_| file.write_all(line.as_bytes()));
        }
        let case = cases::make(&mut Rng::new(seed, k as u64), k, &mut fixed);
        if single || trace {
            println!("case {k}: {}", case.name);
        }
        run.rng = Rng::new(!seed, k as u64);
        if let Err(failure) = run.case(&case) {
            let dir = out.join(format!("case-{k}"));
            let command = format!("{program} --seed {seed} --case {k}");
            println!("case {k} ({}) FAILED\n{}reproduce: {command}", case.name, failure.report);
            match save(&dir, &case, &failure, &command) {
                Ok(()) => println!("inputs and buffers are in {}", dir.display()),
                Err(e) => println!("could not write {}: {e}", dir.display()),
            }
            let _ = std::fs::remove_file(&running);
            return false;
        }
    }
    let _ = std::fs::remove_file(&running);
    for (i, call) in CALLS.iter().enumerate().filter(|x| HAVE[x.0]) {
        let told: Vec<_> = CAN[i].iter().map(|&r| format!("{r}:{}", run.seen[i][r as usize])).collect();
        println!("{call:16} {}", told.join(" "));
    }
    let missed: Vec<_> = (0..CALLS.len())
        .filter(|&i| HAVE[i])
        .flat_map(|i| CAN[i].iter().map(move |&r| (i, r)))
        .filter(|&(i, r)| run.seen[i][r as usize] == 0)
        .map(|(i, r)| format!("{} {r}", CALLS[i]))
        .collect();
    if !missed.is_empty() && !single {
        println!("never met: {}", missed.join(", "));
    }
    println!("all {} cases agree", range.len());
    true
}

fn check_model(seed: u64, range: std::ops::Range<usize>, trace: bool) -> bool {
    if let Err(e) = inner::paper() {
        println!("case of the paper FAILED: {e}");
        return false;
    }
    let mut fixed: Vec<_> = cases::fixed().into_iter().map(Some).collect();
    let mut done = inner::Done::default();
    for k in range.clone() {
        let case = cases::make(&mut Rng::new(seed, k as u64), k, &mut fixed);
        if trace {
            println!("case {k}: {}", case.name);
        }
        if let Err(e) = inner::case(&case, &mut done) {
            println!("case {k} ({}) FAILED: {e}\nreproduce: --self --seed {seed} --case {k}", case.name);
            return false;
        }
    }
    println!("{done:?}");
    println!("all {} cases agree within the model", range.len());
    true
}
