//! Weighted transducers ("tables") over a proved library: read, written, composed, applied to a string, trimmed, counted, searched, listed.
//!
//! A table has states, arcs that read and write a label each at a cost, a start, and final states. Two tables are composed, a code is
//! applied, and the accepting paths of the lattice that results are the code's readings:
//!
//! ```
//! use forthwn::{Arc, Final, Table};
//!
//! # fn main() -> Result<(), forthwn::Refusal> {
//! // 1 or 2 is read; 2 may be a slip for 1 at cost 3.
//! let arcs = [
//!     Arc { source: 0, input: 1, output: 1, target: 1, weight: 0 },
//!     Arc { source: 0, input: 2, output: 2, target: 1, weight: 0 },
//!     Arc { source: 0, input: 2, output: 1, target: 1, weight: 3 },
//! ];
//! let left = Table::new(2, 0, &[Final { state: 1, weight: 0 }], &arcs)?;
//! // 1 is written as 20 30, and 2 as 21.
//! let arcs = [
//!     Arc { source: 0, input: 1, output: 20, target: 1, weight: 0 },
//!     Arc { source: 0, input: 2, output: 21, target: 2, weight: 0 },
//!     Arc { source: 1, input: 0, output: 30, target: 2, weight: 1 },
//! ];
//! let right = Table::new(3, 0, &[Final { state: 2, weight: 0 }], &arcs)?;
//!
//! let composed = left.compose(&right)?;
//! let lattice = composed.table.apply(&[2])?;
//! assert_eq!(lattice.table.count()?, 2);
//! let said: Vec<_> = lattice.table.paths()?.map(|path| (path.cost, path.labels)).collect();
//! assert_eq!(said, [(0, vec![21]), (4, vec![20, 30])]);
//! assert_eq!(lattice.table.shortest()?.labels, [21]);
//! # Ok(())
//! # }
//! ```
//!
//! [`readings`] does all of this from bytes to the count in one call, and [`list`] gives the readings as text. [`Table::cascade`],
//! [`cascade_readings`] and [`cascade_list`] apply the string first, for tables whose composition would be too large. The module [`lent`] has
//! every call of the library over slices that the caller lends, without allocation; the owned types here are made of them.
//!
//! Every call ends, has no state of its own and may run in several threads at once. It needs at most [`lent::STACK`] bytes of stack.
#![deny(missing_docs)]
#![deny(unsafe_code)]

pub mod lent;
mod refusal;
#[allow(unsafe_code)]
mod sys;
mod table;

pub use lent::Head;
pub use refusal::Refusal;
pub use table::{Arc, Cascade, Composed, Final, Lattice, Origin, Path, Paths, Table, Trimmed};

/// The weight of an arc or a final state: -1,000,000 to 1,000,000.
pub type Weight = i32;

/// The cost of a path: the sum of its weights.
pub type Cost = i64;

/// The count that stands for 99 or more.
pub const MANY: u32 = 99;

/// The label for any symbol, as an input and, beside that input alone, as an output.
pub const ANY: u16 = 65_535;

/// The number of readings: composes two tables, applies a string of 0 to 64 symbols and counts accepting paths, [`MANY`] standing for
/// 99 or more. Tables are given as bytes or as [`Table`]s.
///
/// ```
/// use forthwn::{readings, Refusal, Table};
///
/// let one = Table::new(1, 0, &[forthwn::Final { state: 0, weight: 0 }], &[])?;
/// assert_eq!(readings(&one, &one, &[])?, 1);
/// assert_eq!(readings(&one, &one, &[7])?, 0);
/// assert_eq!(readings(&one, b"", &[7]), Err(Refusal::BAD_RECORDS));
/// # Ok::<(), Refusal>(())
/// ```
pub fn readings(left: impl AsRef<[u8]>, right: impl AsRef<[u8]>, string: &[u16]) -> Result<u32, Refusal> {
    lent::readings(left.as_ref(), right.as_ref(), string)
}

/// A listing: its text, and the refusal that the text says.
#[derive(Clone, Debug, PartialEq, Eq, Hash)]
pub struct Listing {
    /// `readings` and the count, `99+` or `endless`; where the count is below 99, a line for each reading: its number, its cost and its
    /// output labels. Or `refused` and the number.
    pub text: String,
    /// The refusal of the tables or the code that the text says; none where it lists.
    pub said: Option<Refusal>,
}

/// Lists the readings of a code, given as bytes, two for each label, the lower one first.
///
/// ```
/// let one = forthwn::Table::new(1, 0, &[forthwn::Final { state: 0, weight: 5 }], &[])?;
/// let listing = forthwn::list(&one, &one, b"");
/// assert_eq!((listing.text.as_str(), listing.said), ("readings 1\n0 10\n", None));
/// let listing = forthwn::list(&one, &one, b"\x07");
/// assert_eq!((listing.text.as_str(), listing.said), ("refused 9\n", Some(forthwn::Refusal::BAD_CODE)));
/// # Ok::<(), forthwn::Refusal>(())
/// ```
pub fn list(left: impl AsRef<[u8]>, right: impl AsRef<[u8]>, code: &[u8]) -> Listing {
    listing(|text| lent::list(left.as_ref(), right.as_ref(), code, text))
}

/// The number of readings by the cascade, which applies the string to the left table before anything is composed; [`MANY`] stands for 99 or
/// more. Where neither is refused before its count, it is that of [`readings`].
///
/// ```
/// use forthwn::{cascade_readings, Refusal, Table};
///
/// let one = Table::new(1, 0, &[forthwn::Final { state: 0, weight: 0 }], &[])?;
/// assert_eq!(cascade_readings(&one, &one, &[])?, 1);
/// assert_eq!(cascade_readings(b"", &one, &[0]), Err(Refusal::BAD_RECORDS));
/// # Ok::<(), Refusal>(())
/// ```
pub fn cascade_readings(left: impl AsRef<[u8]>, right: impl AsRef<[u8]>, string: &[u16]) -> Result<u32, Refusal> {
    lent::cascade_readings(left.as_ref(), right.as_ref(), string)
}

/// Lists the readings of a code by the cascade, in the form of [`list`].
///
/// ```
/// let one = forthwn::Table::new(1, 0, &[forthwn::Final { state: 0, weight: 5 }], &[])?;
/// assert_eq!(forthwn::cascade_list(&one, &one, b"").text, "readings 1\n0 10\n");
/// # Ok::<(), forthwn::Refusal>(())
/// ```
pub fn cascade_list(left: impl AsRef<[u8]>, right: impl AsRef<[u8]>, code: &[u8]) -> Listing {
    listing(|text| lent::cascade_list(left.as_ref(), right.as_ref(), code, text))
}

fn listing(call: impl FnOnce(&mut [u8]) -> Result<lent::Listed, Refusal>) -> Listing {
    let mut text = vec![0; lent::TEXT];
    let listed = call(&mut text).expect("the buffer has its least length");
    text.truncate(listed.len);
    Listing { text: String::from_utf8(text).expect("a listing is ASCII"), said: listed.said }
}
