//! The calls of the library over lent slices: nothing is allocated, and the contents of every slice afterwards are fixed.
//!
//! On success, cells behind what was written are 0, and slices lent to work in are all 0. After refusals 11 to 13 every mutable slice is
//! all 0; after every other refusal each keeps its contents. A slice may be longer than its least length.
#![allow(unsafe_code)]
use crate::sys;
use crate::{Cost, Refusal, Weight};

/// Least length of a buffer for a table or a lattice, in bytes: the largest there is.
pub const TABLE: usize = 59404;
/// Least length for the origins of a composition, two for each arc.
pub const ORIGINS: usize = 6144;
/// Least length for the origins of a lattice or of a trimmed table, one for each arc.
pub const LATTICE_ORIGINS: usize = 3072;
/// Least length for the states of a composition, or the pairs of a lattice, to work in.
pub const STATES: usize = 1024;
/// Least length for the arcs, and for the labels, of a path.
pub const PATH: usize = 1023;
/// Least length for costs to come, one for each state that there can be.
pub const CELLS: usize = 1024;
/// Least length for the final states, and for the final weights, of a table that is read.
pub const FINALS: usize = 1024;
/// Least length for its arcs, four fields each: source, input label, output label, target.
pub const FIELDS: usize = 12288;
/// Least length for its arc weights.
pub const WEIGHTS: usize = 3072;
/// Least length of a buffer for a listing, in bytes.
pub const TEXT: usize = 602996;

/// Stands for a cost where there is no path.
pub const NO_COST: Cost = 1_000_000_000_001;

/// Bytes of stack that a call needs at most, for whoever sizes the stack of a thread.
pub const STACK: usize = 327680;

/// The numbers at the head of a table.
#[repr(C)]
#[derive(Clone, Copy, Debug, Default, PartialEq, Eq, Hash)]
pub struct Head {
    /// Number of states, 1 to 1,024.
    pub states: u32,
    /// Number of arcs, 0 to 3,072.
    pub arcs: u32,
    /// Number of final states.
    pub finals: u32,
    /// The start, a state.
    pub start: u32,
}

/// What is told of a path: its cost, and how many arcs and labels stand in the buffers.
#[repr(C)]
#[derive(Clone, Copy, Debug, Default, PartialEq, Eq, Hash)]
pub struct Told {
    /// The sum of its weights, the final one included.
    pub cost: Cost,
    /// Number of arcs.
    pub arcs: u64,
    /// Number of non-empty output labels.
    pub labels: u64,
}

/// What is told of a listing: the length of its text, and the refusal that the text says.
#[derive(Clone, Copy, Debug, PartialEq, Eq, Hash)]
pub struct Listed {
    /// Number of bytes.
    pub len: usize,
    /// The refusal of the tables or the code that the text says; none where it lists.
    pub said: Option<Refusal>,
}

fn answer<T>(refusal: u32, value: T) -> Result<T, Refusal> {
    Refusal::from_call(refusal).map_or(Ok(value), Err)
}

/// Whether some bytes are a table. Refusals 1 to 8.
pub fn accepts(bytes: &[u8]) -> Result<(), Refusal> {
    // SAFETY: pointer and length are those of a slice that is only read.
    let refusal = unsafe { sys::forthwn_refusal(bytes.as_ptr(), bytes.len()) };
    answer(refusal, ())
}

/// Reads a table: its final states and their weights, and for each arc four fields (source, input, output, target) and a weight.
/// Lent: [`FINALS`] twice, [`FIELDS`], [`WEIGHTS`]. Refusals 1 to 8, 10.
pub fn read(
    bytes: &[u8],
    final_states: &mut [u16],
    final_weights: &mut [Weight],
    fields: &mut [u16],
    arc_weights: &mut [Weight],
) -> Result<Head, Refusal> {
    let mut head = Head::default();
    // SAFETY: each pointer and length are those of one slice, mutable ones overlap nothing, `head` is four numbers of 32 bits.
    let refusal = unsafe {
        sys::forthwn_read(
            bytes.as_ptr(),
            bytes.len(),
            final_states.as_mut_ptr(),
            final_states.len(),
            final_weights.as_mut_ptr(),
            final_weights.len(),
            fields.as_mut_ptr(),
            fields.len(),
            arc_weights.as_mut_ptr(),
            arc_weights.len(),
            &mut head,
        )
    };
    answer(refusal, head)
}

/// Writes a table from numbers as [`read`] gives them, ignoring what lies behind them, and tells its length in bytes.
/// Lent: [`TABLE`]. Refusals 3 to 8, 10; 4 where a run is shorter than the head asks for.
pub fn write(
    head: Head,
    final_states: &[u16],
    final_weights: &[Weight],
    fields: &[u16],
    arc_weights: &[Weight],
    out: &mut [u8],
) -> Result<usize, Refusal> {
    let mut len = 0;
    // SAFETY: each pointer and length are those of one slice, and the mutable one overlaps nothing.
    let refusal = unsafe {
        sys::forthwn_write(
            head.states,
            head.arcs,
            head.finals,
            head.start,
            final_states.as_ptr(),
            final_states.len(),
            final_weights.as_ptr(),
            final_weights.len(),
            fields.as_ptr(),
            fields.len(),
            arc_weights.as_ptr(),
            arc_weights.len(),
            out.as_mut_ptr(),
            out.len(),
            &mut len,
        )
    };
    answer(refusal, len as usize)
}

/// Composes two tables and tells the composition's length in bytes; its origins are the left arc and the right arc of each arc in turn,
/// 65,535 for a side that stood still. Lent: [`TABLE`], [`ORIGINS`], [`STATES`] to work in. Refusals 1 to 8 and
/// 18 of the left, 1 to 8 of the right, 10 to 13.
pub fn compose(left: &[u8], right: &[u8], table: &mut [u8], origins: &mut [u16], states: &mut [u32]) -> Result<usize, Refusal> {
    let mut len = 0;
    // SAFETY: each pointer and length are those of one slice, and mutable ones overlap nothing.
    let refusal = unsafe {
        sys::forthwn_compose(
            left.as_ptr(),
            left.len(),
            right.as_ptr(),
            right.len(),
            table.as_mut_ptr(),
            table.len(),
            origins.as_mut_ptr(),
            origins.len(),
            states.as_mut_ptr(),
            states.len(),
            &mut len,
        )
    };
    answer(refusal, len as usize)
}

/// Applies a string of 0 to 64 symbols and tells the lattice's length in bytes; its origins are the arcs of the table.
/// Lent: [`TABLE`], [`LATTICE_ORIGINS`], [`STATES`] to work in. Refusals 1 to 12.
pub fn apply(string: &[u16], table: &[u8], lattice: &mut [u8], origins: &mut [u16], pairs: &mut [u32]) -> Result<usize, Refusal> {
    let mut len = 0;
    // SAFETY: each pointer and length are those of one slice, and mutable ones overlap nothing.
    let refusal = unsafe {
        sys::forthwn_apply(
            string.as_ptr(),
            string.len(),
            table.as_ptr(),
            table.len(),
            lattice.as_mut_ptr(),
            lattice.len(),
            origins.as_mut_ptr(),
            origins.len(),
            pairs.as_mut_ptr(),
            pairs.len(),
            &mut len,
        )
    };
    answer(refusal, len as usize)
}

/// Keeps what lies on accepting paths, renumbered, and tells its length in bytes; origins are the numbers that the kept arcs had.
/// Lent: [`TABLE`], [`LATTICE_ORIGINS`]. Refusals 1 to 8, 10.
pub fn trim(table: &[u8], out: &mut [u8], origins: &mut [u16]) -> Result<usize, Refusal> {
    let mut len = 0;
    // SAFETY: each pointer and length are those of one slice, and mutable ones overlap nothing.
    let refusal = unsafe {
        sys::forthwn_trim(table.as_ptr(), table.len(), out.as_mut_ptr(), out.len(), origins.as_mut_ptr(), origins.len(), &mut len)
    };
    answer(refusal, len as usize)
}

/// The number of accepting paths, 99 standing for 99 or more. Refusals 1 to 8, 14.
pub fn count(table: &[u8]) -> Result<u32, Refusal> {
    let mut count = 0;
    // SAFETY: pointer and length are those of a slice that is only read.
    let refusal = unsafe { sys::forthwn_count(table.as_ptr(), table.len(), &mut count) };
    answer(refusal, count)
}

/// The k-th accepting path in path order, from 0. Lent: [`PATH`] twice. Refusals 1 to 8, 10, 14, 15.
pub fn nth(table: &[u8], k: u32, arcs: &mut [u16], labels: &mut [u16]) -> Result<Told, Refusal> {
    let mut told = Told::default();
    // SAFETY: each pointer and length are those of one slice, mutable ones overlap nothing, `told` is three numbers of 64 bits.
    let refusal = unsafe {
        sys::forthwn_nth(table.as_ptr(), table.len(), k, arcs.as_mut_ptr(), arcs.len(), labels.as_mut_ptr(), labels.len(), &mut told)
    };
    answer(refusal, told)
}

/// The accepting path of least cost, then of fewest labels, then of fewest arcs, then first in path order. Lent: [`PATH`] twice. Refusals 1
/// to 8, 10, 16, 19.
pub fn shortest(table: &[u8], arcs: &mut [u16], labels: &mut [u16]) -> Result<Told, Refusal> {
    let mut told = Told::default();
    // SAFETY: each pointer and length are those of one slice, mutable ones overlap nothing, `told` is three numbers of 64 bits.
    let refusal = unsafe {
        sys::forthwn_shortest(table.as_ptr(), table.len(), arcs.as_mut_ptr(), arcs.len(), labels.as_mut_ptr(), labels.len(), &mut told)
    };
    answer(refusal, told)
}

/// The least cost still to come from each state, over all paths that lead from it to a final state; [`NO_COST`] where no path does, and past
/// the last state. Lent: [`CELLS`]. Refusals 1 to 8, 10, 19.
pub fn distance(table: &[u8], cells: &mut [Cost]) -> Result<(), Refusal> {
    // SAFETY: each pointer and length are those of one slice, and the mutable one overlaps nothing.
    let refusal = unsafe { sys::forthwn_distance(table.as_ptr(), table.len(), cells.as_mut_ptr(), cells.len()) };
    answer(refusal, ())
}

/// Composes, applies and counts in one call; 99 stands for 99 or more. Refusals: those of [`compose`], then 9, 11, 12, 14; never 10.
pub fn readings(left: &[u8], right: &[u8], string: &[u16]) -> Result<u32, Refusal> {
    let mut count = 0;
    // SAFETY: each pointer and length are those of one slice that is only read.
    let refusal =
        unsafe { sys::forthwn_readings(left.as_ptr(), left.len(), right.as_ptr(), right.len(), string.as_ptr(), string.len(), &mut count) };
    answer(refusal, count)
}

/// The listing as text, for a code of two bytes for each label; a refusal of the tables or the code is a text too.
/// Lent: [`TEXT`]. Refusal 10 alone.
pub fn list(left: &[u8], right: &[u8], code: &[u8], out: &mut [u8]) -> Result<Listed, Refusal> {
    let (mut len, mut said) = (0, 0);
    // SAFETY: each pointer and length are those of one slice, and the mutable one overlaps nothing.
    let refusal = unsafe {
        sys::forthwn_list(
            left.as_ptr(),
            left.len(),
            right.as_ptr(),
            right.len(),
            code.as_ptr(),
            code.len(),
            out.as_mut_ptr(),
            out.len(),
            &mut len,
            &mut said,
        )
    };
    answer(refusal, Listed { len: len as usize, said: Refusal::from_call(said) })
}

/// Applies a string of 0 to 64 symbols to the left table, composes the lattice with the right one and tells the length of that composition in
/// bytes; its origins are the arc of the left table and the arc of the right one, of each arc in turn, 65,535 for a side that stood still.
/// The left table may have arcs for any symbol. Lent: [`TABLE`], [`ORIGINS`], [`STATES`] to work in. Refusals 1 to 8 of the left, 1 to 8 of
/// the right, 9, 10, 11 and 12 of the lattice, 11 to 13 of the composition.
pub fn cascade(
    left: &[u8],
    right: &[u8],
    string: &[u16],
    table: &mut [u8],
    origins: &mut [u16],
    states: &mut [u32],
) -> Result<usize, Refusal> {
    let mut len = 0;
    // SAFETY: each pointer and length are those of one slice, and mutable ones overlap nothing.
    let refusal = unsafe {
        sys::forthwn_cascade(
            left.as_ptr(),
            left.len(),
            right.as_ptr(),
            right.len(),
            string.as_ptr(),
            string.len(),
            table.as_mut_ptr(),
            table.len(),
            origins.as_mut_ptr(),
            origins.len(),
            states.as_mut_ptr(),
            states.len(),
            &mut len,
        )
    };
    answer(refusal, len as usize)
}

/// The count of a cascade in one call; 99 stands for 99 or more. Refusals: those of [`cascade`] without 10, then 14.
pub fn cascade_readings(left: &[u8], right: &[u8], string: &[u16]) -> Result<u32, Refusal> {
    let mut count = 0;
    // SAFETY: each pointer and length are those of one slice that is only read.
    let refusal = unsafe {
        sys::forthwn_cascade_readings(left.as_ptr(), left.len(), right.as_ptr(), right.len(), string.as_ptr(), string.len(), &mut count)
    };
    answer(refusal, count)
}

/// The listing of a cascade as text, in the form of [`list`]. Lent: [`TEXT`]. Refusal 10 alone.
pub fn cascade_list(left: &[u8], right: &[u8], code: &[u8], out: &mut [u8]) -> Result<Listed, Refusal> {
    let (mut len, mut said) = (0, 0);
    // SAFETY: each pointer and length are those of one slice, and the mutable one overlaps nothing.
    let refusal = unsafe {
        sys::forthwn_cascade_list(
            left.as_ptr(),
            left.len(),
            right.as_ptr(),
            right.len(),
            code.as_ptr(),
            code.len(),
            out.as_mut_ptr(),
            out.len(),
            &mut len,
            &mut said,
        )
    };
    answer(refusal, Listed { len: len as usize, said: Refusal::from_call(said) })
}
