//! Tables that own their numbers and bytes, and what the calls make of them.
use crate::lent::{self, Head, Told};
use crate::{Cost, Refusal, Weight};
use std::iter::FusedIterator;

/// The calls under these owned types lend buffers of their least lengths and tables that were accepted, so some refusals cannot come.
const CANNOT: &str = "the library does not refuse this";

/// A final state and its weight.
#[derive(Clone, Copy, Debug, PartialEq, Eq, Hash)]
pub struct Final {
    /// The state.
    pub state: u16,
    /// What it costs to end there.
    pub weight: Weight,
}

/// An arc. Label 0 reads or writes nothing, 1 to 65,534 are symbols. Input 65,535 reads any symbol that no arc of its state has as its input, and
/// output 65,535 beside it writes the symbol that was read.
#[derive(Clone, Copy, Debug, PartialEq, Eq, Hash)]
pub struct Arc {
    /// The state it leaves.
    pub source: u16,
    /// The label it reads.
    pub input: u16,
    /// The label it writes.
    pub output: u16,
    /// The state it leads to.
    pub target: u16,
    /// What it costs.
    pub weight: Weight,
}

/// A table that the library accepts: its numbers, and the bytes that say them.
#[derive(Clone, Debug, PartialEq, Eq, Hash)]
pub struct Table {
    head: Head,
    finals: Vec<Final>,
    arcs: Vec<Arc>,
    bytes: Vec<u8>,
}

/// An accepting path.
#[derive(Clone, Debug, PartialEq, Eq, Hash)]
pub struct Path {
    /// The sum of its weights, the final one included.
    pub cost: Cost,
    /// The numbers of its arcs.
    pub arcs: Vec<u16>,
    /// The non-empty labels it writes.
    pub labels: Vec<u16>,
}

/// Where an arc of a composition or of a cascade came from; none for a side that stood still.
#[derive(Clone, Copy, Debug, PartialEq, Eq, Hash)]
pub struct Origin {
    /// The arc of the left table.
    pub left: Option<u16>,
    /// The arc of the right table.
    pub right: Option<u16>,
}

/// A composition: what the left table writes, the right one reads.
#[derive(Clone, Debug, PartialEq, Eq, Hash)]
pub struct Composed {
    /// The composition, untrimmed, its states numbered as first reached.
    pub table: Table,
    /// For each of its arcs, where it came from.
    pub origins: Vec<Origin>,
}

/// What a string makes of a table.
#[derive(Clone, Debug, PartialEq, Eq, Hash)]
pub struct Lattice {
    /// A trimmed table that accepts by exactly the paths that read the string.
    pub table: Table,
    /// For each of its arcs, the arc of the table that it came from.
    pub origins: Vec<u16>,
}

/// A cascade: what a string makes of the left table, composed with the right one.
#[derive(Clone, Debug, PartialEq, Eq, Hash)]
pub struct Cascade {
    /// The composition of the left table's lattice with the right table, untrimmed, its states numbered as first reached. Its accepting paths
    /// are the readings.
    pub table: Table,
    /// For each of its arcs, the arcs of the two tables that it came from.
    pub origins: Vec<Origin>,
}

/// A table without what lies on no accepting path.
#[derive(Clone, Debug, PartialEq, Eq, Hash)]
pub struct Trimmed {
    /// The states and arcs that are kept, in their order, renumbered; the start alone where nothing accepts.
    pub table: Table,
    /// For each of its arcs, the number it had.
    pub origins: Vec<u16>,
}

impl Table {
    /// Reads a table from its bytes. Refusals 1 to 8.
    ///
    /// ```
    /// use forthwn::{Arc, Final, Table};
    ///
    /// let bytes = [
    ///     8, 0, 1, 0, 2, 0, 1, 0, 1, 0, 0, 0, // 2 states, 1 arc, 1 final, start 0
    ///     6, 0, 2, 0, 1, 0, 0, 0, 0, 0, // state 1 is final, weight 0
    ///     12, 0, 3, 0, 0, 0, 1, 0, 2, 0, 1, 0, 5, 0, 0, 0, // 0 to 1, reads 1, writes 2, weight 5
    /// ];
    /// let table = Table::read(&bytes)?;
    /// assert_eq!(table.arcs(), [Arc { source: 0, input: 1, output: 2, target: 1, weight: 5 }]);
    /// assert_eq!(table.finals(), [Final { state: 1, weight: 0 }]);
    /// assert_eq!(table.to_bytes(), bytes);
    /// # Ok::<(), forthwn::Refusal>(())
    /// ```
    pub fn read(bytes: &[u8]) -> Result<Table, Refusal> {
        let (mut states, mut weights) = (vec![0; lent::FINALS], vec![0; lent::FINALS]);
        let (mut fields, mut arc_weights) = (vec![0; lent::FIELDS], vec![0; lent::WEIGHTS]);
        let head = lent::read(bytes, &mut states, &mut weights, &mut fields, &mut arc_weights)?;
        let finals = states.iter().zip(weights).map(|(&state, weight)| Final { state, weight });
        let arc = |(x, weight): (&[u16], Weight)| Arc { source: x[0], input: x[1], output: x[2], target: x[3], weight };
        let arcs = fields.chunks_exact(4).zip(arc_weights).map(arc);
        Ok(Table {
            head,
            finals: finals.take(head.finals as usize).collect(),
            arcs: arcs.take(head.arcs as usize).collect(),
            bytes: bytes.to_vec(),
        })
    }

    /// A table of that many states, with its start, its final states, which must rise, and its arcs, whose sources must not fall.
    /// Refusals 3 and 5 to 8.
    pub fn new(states: u32, start: u32, finals: &[Final], arcs: &[Arc]) -> Result<Table, Refusal> {
        let number = |len: usize| u32::try_from(len).unwrap_or(u32::MAX);
        let head = Head { states, arcs: number(arcs.len()), finals: number(finals.len()), start };
        let final_states: Vec<u16> = finals.iter().map(|x| x.state).collect();
        let final_weights: Vec<Weight> = finals.iter().map(|x| x.weight).collect();
        let fields: Vec<u16> = arcs.iter().flat_map(|x| [x.source, x.input, x.output, x.target]).collect();
        let arc_weights: Vec<Weight> = arcs.iter().map(|x| x.weight).collect();
        let mut bytes = vec![0; lent::TABLE];
        let len = lent::write(head, &final_states, &final_weights, &fields, &arc_weights, &mut bytes)?;
        bytes.truncate(len);
        Ok(Table { head, finals: finals.to_vec(), arcs: arcs.to_vec(), bytes })
    }

    /// Bytes that a call wrote, with the length it told.
    fn written(buffer: &[u8], len: usize) -> Table {
        Table::read(&buffer[..len]).expect(CANNOT)
    }

    /// The numbers at its head: states, arcs, finals and start.
    pub fn head(&self) -> Head {
        self.head
    }

    /// Its final states, rising.
    pub fn finals(&self) -> &[Final] {
        &self.finals
    }

    /// Its arcs; an arc's number is its place.
    pub fn arcs(&self) -> &[Arc] {
        &self.arcs
    }

    /// Its bytes.
    pub fn as_bytes(&self) -> &[u8] {
        &self.bytes
    }

    /// A copy of its bytes.
    pub fn to_bytes(&self) -> Vec<u8> {
        self.bytes.clone()
    }

    /// Composes this table, as the left one, with a right one. Refusals 11 to 13, and 18 where this one has an arc of input 65,535.
    pub fn compose(&self, right: &Table) -> Result<Composed, Refusal> {
        let (mut table, mut origins, mut states) = (vec![0; lent::TABLE], vec![0; lent::ORIGINS], vec![0; lent::STATES]);
        let len = lent::compose(&self.bytes, &right.bytes, &mut table, &mut origins, &mut states)?;
        let table = Table::written(&table, len);
        let origins = origins_of(&origins, &table);
        Ok(Composed { table, origins })
    }

    /// Applies a string of 0 to 64 symbols to this table, as the left one, and composes what comes of it with a right one. That takes pairs
    /// of tables whose composition is too large, and this table may have arcs of input 65,535. Refusals 9, 11 to 13.
    ///
    /// ```
    /// use forthwn::{Arc, Final, Table, ANY};
    ///
    /// // Any symbol is passed on at cost 1; the right table knows 7.
    /// let end = [Final { state: 0, weight: 0 }];
    /// let left = Table::new(1, 0, &end, &[Arc { source: 0, input: ANY, output: ANY, target: 0, weight: 1 }])?;
    /// let right = Table::new(1, 0, &end, &[Arc { source: 0, input: 7, output: 20, target: 0, weight: 0 }])?;
    /// let cascade = left.cascade(&right, &[7, 7])?;
    /// let path = cascade.table.shortest()?;
    /// assert_eq!((path.cost, &path.labels[..]), (2, &[20, 20][..]));
    /// assert_eq!(cascade.pair(&path), (vec![0, 0], vec![0, 0]));
    /// # Ok::<(), forthwn::Refusal>(())
    /// ```
    pub fn cascade(&self, right: &Table, string: &[u16]) -> Result<Cascade, Refusal> {
        let (mut table, mut origins, mut states) = (vec![0; lent::TABLE], vec![0; lent::ORIGINS], vec![0; lent::STATES]);
        let len = lent::cascade(&self.bytes, &right.bytes, string, &mut table, &mut origins, &mut states)?;
        let table = Table::written(&table, len);
        let origins = origins_of(&origins, &table);
        Ok(Cascade { table, origins })
    }

    /// Applies a string of 0 to 64 symbols. Refusals 9, 11 and 12.
    pub fn apply(&self, string: &[u16]) -> Result<Lattice, Refusal> {
        let (mut lattice, mut origins) = (vec![0; lent::TABLE], vec![0; lent::LATTICE_ORIGINS]);
        let len = lent::apply(string, &self.bytes, &mut lattice, &mut origins, &mut [0; lent::STATES])?;
        let table = Table::written(&lattice, len);
        origins.truncate(table.arcs.len());
        Ok(Lattice { table, origins })
    }

    /// Keeps what lies on accepting paths.
    pub fn trim(&self) -> Trimmed {
        let (mut out, mut origins) = (vec![0; lent::TABLE], vec![0; lent::LATTICE_ORIGINS]);
        let len = lent::trim(&self.bytes, &mut out, &mut origins).expect(CANNOT);
        let table = Table::written(&out, len);
        origins.truncate(table.arcs.len());
        Trimmed { table, origins }
    }

    /// The number of accepting paths, [`MANY`](crate::MANY) standing for 99 or more. Refusal 14 where they are infinitely many.
    pub fn count(&self) -> Result<u32, Refusal> {
        lent::count(&self.bytes)
    }

    /// The k-th accepting path in path order, from 0. Refusals 14 and 15.
    pub fn path(&self, k: u32) -> Result<Path, Refusal> {
        path(|arcs, labels| lent::nth(&self.bytes, k, arcs, labels))
    }

    /// The accepting path of least cost, then of fewest labels (an empty output is none), then of fewest arcs, then first in path order; there
    /// is one where accepting paths are infinitely many, too, but where a cycle on one of them sums below 0: then no cost is the least.
    /// Refusals 16 and 19.
    ///
    /// ```
    /// use forthwn::{Arc, Final, Refusal, Table};
    ///
    /// let arc = |source, output, target, weight| Arc { source, input: 1, output, target, weight };
    /// let end = [Final { state: 1, weight: 0 }];
    /// assert_eq!(Table::new(2, 0, &end, &[arc(0, 2, 1, 5), arc(0, 3, 1, -7)])?.shortest()?.cost, -7);
    /// assert_eq!(Table::new(2, 0, &end, &[arc(0, 2, 1, 5), arc(1, 3, 1, -1)])?.shortest(), Err(Refusal::NEGATIVE_CYCLE));
    /// # Ok::<(), Refusal>(())
    /// ```
    pub fn shortest(&self) -> Result<Path, Refusal> {
        path(|arcs, labels| lent::shortest(&self.bytes, arcs, labels))
    }

    /// The least cost still to come from each state (the shortest distance to the final states), over all paths that lead from it to a final
    /// state; none where no path does. States that the start does not reach have theirs too. Refusal 19 where a cycle sums below 0 and leads
    /// to a final state, wherever it is.
    ///
    /// ```
    /// use forthwn::{Arc, Final, Refusal, Table};
    ///
    /// let arc = |source, target, weight| Arc { source, input: 1, output: 2, target, weight };
    /// let end = [Final { state: 1, weight: 4 }];
    /// assert_eq!(Table::new(4, 0, &end, &[arc(0, 1, 5), arc(0, 3, 0), arc(2, 0, -7)])?.distance()?, [Some(9), Some(4), Some(2), None]);
    /// assert_eq!(Table::new(3, 0, &end, &[arc(2, 1, 5), arc(2, 2, -1)])?.distance(), Err(Refusal::NEGATIVE_CYCLE));
    /// # Ok::<(), Refusal>(())
    /// ```
    pub fn distance(&self) -> Result<Vec<Option<Cost>>, Refusal> {
        let mut cells = vec![0; lent::CELLS];
        lent::distance(&self.bytes, &mut cells)?;
        cells.truncate(self.head.states as usize);
        Ok(cells.into_iter().map(|cost| (cost != lent::NO_COST).then_some(cost)).collect())
    }

    /// The accepting paths in path order; of 99 or more, the first 99. Refusal 14 where they are infinitely many.
    ///
    /// ```
    /// use forthwn::{Arc, Final, Refusal, Table};
    ///
    /// let end = [Final { state: 0, weight: 0 }];
    /// let ring = Table::new(1, 0, &end, &[Arc { source: 0, input: 0, output: 7, target: 0, weight: 2 }])?;
    /// assert_eq!(ring.paths().err(), Some(Refusal::ENDLESS));
    /// let costs: Vec<_> = Table::new(1, 0, &end, &[])?.paths()?.map(|path| path.cost).collect();
    /// assert_eq!(costs, [0]);
    /// # Ok::<(), Refusal>(())
    /// ```
    pub fn paths(&self) -> Result<Paths<'_>, Refusal> {
        Ok(Paths { table: self, next: 0, count: self.count()? })
    }
}

/// The origins of a table's arcs, left and right in turn, as a call wrote them.
fn origins_of(cells: &[u16], table: &Table) -> Vec<Origin> {
    let moved = |arc: u16| (arc != u16::MAX).then_some(arc);
    cells.chunks_exact(2).take(table.arcs.len()).map(|x| Origin { left: moved(x[0]), right: moved(x[1]) }).collect()
}

fn path(call: impl FnOnce(&mut [u16], &mut [u16]) -> Result<Told, Refusal>) -> Result<Path, Refusal> {
    let (mut arcs, mut labels) = (vec![0; lent::PATH], vec![0; lent::PATH]);
    let told = call(&mut arcs, &mut labels)?;
    arcs.truncate(told.arcs as usize);
    labels.truncate(told.labels as usize);
    Ok(Path { cost: told.cost, arcs, labels })
}

impl AsRef<[u8]> for Table {
    fn as_ref(&self) -> &[u8] {
        &self.bytes
    }
}

impl TryFrom<&[u8]> for Table {
    type Error = Refusal;

    fn try_from(bytes: &[u8]) -> Result<Table, Refusal> {
        Table::read(bytes)
    }
}

impl Composed {
    /// The arcs of the left table and those of the right one along a path of a lattice of this composition.
    ///
    /// # Panics
    /// Where the lattice is not one of this composition or the path is not one of the lattice, and an arc is not there.
    pub fn pair(&self, lattice: &Lattice, path: &Path) -> (Vec<u16>, Vec<u16>) {
        let steps = || path.arcs.iter().map(|&arc| self.origins[usize::from(lattice.origins[usize::from(arc)])]);
        (steps().filter_map(|x| x.left).collect(), steps().filter_map(|x| x.right).collect())
    }
}

impl Cascade {
    /// The arcs of the left table and those of the right one along a path of this cascade.
    ///
    /// # Panics
    /// Where the path is not one of this cascade's table, and an arc is not there.
    pub fn pair(&self, path: &Path) -> (Vec<u16>, Vec<u16>) {
        let steps = || path.arcs.iter().map(|&arc| self.origins[usize::from(arc)]);
        (steps().filter_map(|x| x.left).collect(), steps().filter_map(|x| x.right).collect())
    }
}

/// The accepting paths of a table in path order; of 99 or more, the first 99.
#[derive(Clone, Debug)]
pub struct Paths<'a> {
    table: &'a Table,
    next: u32,
    count: u32,
}

impl Iterator for Paths<'_> {
    type Item = Path;

    fn next(&mut self) -> Option<Path> {
        let k = self.next;
        (k < self.count).then(|| {
            self.next += 1;
            self.table.path(k).expect(CANNOT)
        })
    }

    fn size_hint(&self) -> (usize, Option<usize>) {
        let left = (self.count - self.next) as usize;
        (left, Some(left))
    }
}

impl ExactSizeIterator for Paths<'_> {}

impl FusedIterator for Paths<'_> {}
