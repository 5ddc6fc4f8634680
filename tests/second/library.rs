// The calls of the static library, with the signatures of the model.
//
// `--cfg have_first` links refusal, read, write and compose; `--cfg have_all`
// links every call; single calls are added with `--cfg have_trim`,
// `have_apply`, `have_count`, `have_nth`, `have_shortest`, `have_readings`,
// `have_list`, `have_distance`, `have_cascade` (all three of its calls).
// Without any of them nothing is linked and only `--self` can run.
#![allow(dead_code, clippy::too_many_arguments)]

use crate::model::Told;

/// Which calls are linked, in the order of `main::CALLS`.
pub const HAVE: [bool; 15] = [
    cfg!(any(have_all, have_first)),
    cfg!(any(have_all, have_first)),
    cfg!(any(have_all, have_first)),
    cfg!(any(have_all, have_first)),
    cfg!(any(have_all, have_trim)),
    cfg!(any(have_all, have_apply)),
    cfg!(any(have_all, have_count)),
    cfg!(any(have_all, have_nth)),
    cfg!(any(have_all, have_shortest)),
    cfg!(any(have_all, have_readings)),
    cfg!(any(have_all, have_list)),
    cfg!(any(have_all, have_distance)),
    cfg!(any(have_all, have_cascade)),
    cfg!(any(have_all, have_cascade)),
    cfg!(any(have_all, have_cascade)),
];

/// A path's three numbers cross the interface as an array: cost, arcs, labels.
const UNSET: [i64; 3] = [0xA5A5; 3];

fn told(t: [i64; 3]) -> Told {
    (t[0], t[1] as u32, t[2] as u32)
}

// Numbers the library must overwrite start with this.
const DIRTY: u32 = 0xA5A5_A5A5;

#[rustfmt::skip]
extern "C" {
    fn forthwn_refusal(bytes: *const u8, len: usize) -> u32;
    fn forthwn_read(bytes: *const u8, len: usize,
        final_states: *mut u16, final_states_len: usize, final_weights: *mut i32, final_weights_len: usize,
        fields: *mut u16, fields_len: usize, arc_weights: *mut i32, arc_weights_len: usize,
        head: *mut [u32; 4]) -> u32;
    fn forthwn_write(n: u32, m: u32, f: u32, start: u32,
        final_states: *const u16, final_states_len: usize, final_weights: *const i32, final_weights_len: usize,
        fields: *const u16, fields_len: usize, arc_weights: *const i32, arc_weights_len: usize,
        out: *mut u8, out_cap: usize, out_len: *mut u32) -> u32;
    fn forthwn_compose(left: *const u8, left_len: usize, right: *const u8, right_len: usize,
        table: *mut u8, table_len: usize, origins: *mut u16, origins_len: usize,
        states: *mut u32, states_len: usize, out_len: *mut u32) -> u32;
    fn forthwn_trim(table: *const u8, table_len: usize, out: *mut u8, out_cap: usize,
        origins: *mut u16, origins_len: usize, out_len: *mut u32) -> u32;
    fn forthwn_apply(string: *const u16, string_len: usize, table: *const u8, table_len: usize,
        lattice: *mut u8, lattice_len: usize, origins: *mut u16, origins_len: usize,
        pairs: *mut u32, pairs_len: usize, out_len: *mut u32) -> u32;
    fn forthwn_count(table: *const u8, table_len: usize, count: *mut u32) -> u32;
    fn forthwn_nth(table: *const u8, table_len: usize, k: u32, arcs: *mut u16, arcs_len: usize,
        labels: *mut u16, labels_len: usize, told: *mut [i64; 3]) -> u32;
    fn forthwn_shortest(table: *const u8, table_len: usize, arcs: *mut u16, arcs_len: usize,
        labels: *mut u16, labels_len: usize, told: *mut [i64; 3]) -> u32;
    fn forthwn_readings(left: *const u8, left_len: usize, right: *const u8, right_len: usize,
        string: *const u16, string_len: usize, count: *mut u32) -> u32;
    fn forthwn_list(left: *const u8, left_len: usize, right: *const u8, right_len: usize,
        code: *const u8, code_len: usize, out: *mut u8, out_cap: usize, out_len: *mut u32,
        said: *mut u32) -> u32;
    fn forthwn_distance(table: *const u8, table_len: usize, cells: *mut i64, cells_len: usize) -> u32;
    fn forthwn_cascade(left: *const u8, left_len: usize, right: *const u8, right_len: usize,
        string: *const u16, string_len: usize, table: *mut u8, table_len: usize,
        origins: *mut u16, origins_len: usize, states: *mut u32, states_len: usize, out_len: *mut u32) -> u32;
    fn forthwn_cascade_readings(left: *const u8, left_len: usize, right: *const u8, right_len: usize,
        string: *const u16, string_len: usize, count: *mut u32) -> u32;
    fn forthwn_cascade_list(left: *const u8, left_len: usize, right: *const u8, right_len: usize,
        code: *const u8, code_len: usize, out: *mut u8, out_cap: usize, out_len: *mut u32,
        said: *mut u32) -> u32;
}

#[cfg(any(have_all, have_first))]
#[rustfmt::skip]
mod first {
    use super::*;

    pub fn refusal(bytes: &[u8]) -> u32 {
        unsafe { forthwn_refusal(bytes.as_ptr(), bytes.len()) }
    }

    pub fn read(bytes: &[u8], final_states: &mut [u16], final_weights: &mut [i32],
        fields: &mut [u16], arc_weights: &mut [i32]) -> (u32, [u32; 4]) {
        let mut head = [DIRTY; 4];
        let refused = unsafe {
            forthwn_read(bytes.as_ptr(), bytes.len(),
                final_states.as_mut_ptr(), final_states.len(), final_weights.as_mut_ptr(), final_weights.len(),
                fields.as_mut_ptr(), fields.len(), arc_weights.as_mut_ptr(), arc_weights.len(), &mut head)
        };
        (refused, head)
    }

    pub fn write(head: [u32; 4], final_states: &[u16], final_weights: &[i32],
        fields: &[u16], arc_weights: &[i32], out: &mut [u8]) -> (u32, u32) {
        let mut length = DIRTY;
        let refused = unsafe {
            forthwn_write(head[0], head[1], head[2], head[3],
                final_states.as_ptr(), final_states.len(), final_weights.as_ptr(), final_weights.len(),
                fields.as_ptr(), fields.len(), arc_weights.as_ptr(), arc_weights.len(),
                out.as_mut_ptr(), out.len(), &mut length)
        };
        (refused, length)
    }

    pub fn compose(left: &[u8], right: &[u8], table: &mut [u8], origins: &mut [u16],
        states: &mut [u32]) -> (u32, u32) {
        let mut length = DIRTY;
        let refused = unsafe {
            forthwn_compose(left.as_ptr(), left.len(), right.as_ptr(), right.len(),
                table.as_mut_ptr(), table.len(), origins.as_mut_ptr(), origins.len(),
                states.as_mut_ptr(), states.len(), &mut length)
        };
        (refused, length)
    }
}

#[cfg(not(any(have_all, have_first)))]
pub use crate::model::{compose, read, refusal, write};
#[cfg(any(have_all, have_first))]
pub use first::*;

#[cfg(any(have_all, have_trim))]
pub fn trim(table: &[u8], out: &mut [u8], origins: &mut [u16]) -> (u32, u32) {
    let mut length = DIRTY;
    let (o, n) = (out.as_mut_ptr(), out.len());
    let (f, m) = (origins.as_mut_ptr(), origins.len());
    let refused = unsafe { forthwn_trim(table.as_ptr(), table.len(), o, n, f, m, &mut length) };
    (refused, length)
}
#[cfg(not(any(have_all, have_trim)))]
pub use crate::model::trim;

#[cfg(any(have_all, have_apply))]
#[rustfmt::skip]
pub fn apply(string: &[u16], table: &[u8], lattice: &mut [u8], origins: &mut [u16],
    pairs: &mut [u32]) -> (u32, u32) {
    let mut length = DIRTY;
    let refused = unsafe {
        forthwn_apply(string.as_ptr(), string.len(), table.as_ptr(), table.len(),
            lattice.as_mut_ptr(), lattice.len(), origins.as_mut_ptr(), origins.len(),
            pairs.as_mut_ptr(), pairs.len(), &mut length)
    };
    (refused, length)
}
#[cfg(not(any(have_all, have_apply)))]
pub use crate::model::apply;

#[cfg(any(have_all, have_count))]
pub fn count(table: &[u8]) -> (u32, u32) {
    let mut number = DIRTY;
    let refused = unsafe { forthwn_count(table.as_ptr(), table.len(), &mut number) };
    (refused, number)
}
#[cfg(not(any(have_all, have_count)))]
pub use crate::model::count;

#[cfg(any(have_all, have_nth))]
pub fn nth(table: &[u8], k: u32, arcs: &mut [u16], labels: &mut [u16]) -> (u32, Told) {
    let mut numbers = UNSET;
    let (a, n) = (arcs.as_mut_ptr(), arcs.len());
    let (l, m) = (labels.as_mut_ptr(), labels.len());
    let refused = unsafe { forthwn_nth(table.as_ptr(), table.len(), k, a, n, l, m, &mut numbers) };
    (refused, told(numbers))
}
#[cfg(not(any(have_all, have_nth)))]
pub use crate::model::nth;

#[cfg(any(have_all, have_shortest))]
pub fn shortest(table: &[u8], arcs: &mut [u16], labels: &mut [u16]) -> (u32, Told) {
    let mut numbers = UNSET;
    let (a, n) = (arcs.as_mut_ptr(), arcs.len());
    let (l, m) = (labels.as_mut_ptr(), labels.len());
    let refused = unsafe { forthwn_shortest(table.as_ptr(), table.len(), a, n, l, m, &mut numbers) };
    (refused, told(numbers))
}
#[cfg(not(any(have_all, have_shortest)))]
pub use crate::model::shortest;

#[cfg(any(have_all, have_readings))]
#[rustfmt::skip]
pub fn readings(left: &[u8], right: &[u8], string: &[u16]) -> (u32, u32) {
    let mut number = DIRTY;
    let refused = unsafe {
        forthwn_readings(left.as_ptr(), left.len(), right.as_ptr(), right.len(),
            string.as_ptr(), string.len(), &mut number)
    };
    (refused, number)
}
#[cfg(not(any(have_all, have_readings)))]
pub use crate::model::readings;

#[cfg(any(have_all, have_list))]
#[rustfmt::skip]
pub fn list(left: &[u8], right: &[u8], code: &[u8], out: &mut [u8]) -> (u32, u32, u32) {
    let mut length = DIRTY;
    let mut said = DIRTY;
    let refused = unsafe {
        forthwn_list(left.as_ptr(), left.len(), right.as_ptr(), right.len(),
            code.as_ptr(), code.len(), out.as_mut_ptr(), out.len(), &mut length, &mut said)
    };
    (refused, length, said)
}
#[cfg(not(any(have_all, have_list)))]
pub use crate::model::list;

#[cfg(any(have_all, have_distance))]
pub fn distance(table: &[u8], cells: &mut [i64]) -> u32 {
    unsafe { forthwn_distance(table.as_ptr(), table.len(), cells.as_mut_ptr(), cells.len()) }
}
#[cfg(not(any(have_all, have_distance)))]
pub use crate::model::distance;

#[cfg(any(have_all, have_cascade))]
#[rustfmt::skip]
mod cascades {
    use super::*;

    pub fn cascade(left: &[u8], right: &[u8], string: &[u16], table: &mut [u8], origins: &mut [u16],
        states: &mut [u32]) -> (u32, u32) {
        let mut length = DIRTY;
        let refused = unsafe {
            forthwn_cascade(left.as_ptr(), left.len(), right.as_ptr(), right.len(), string.as_ptr(), string.len(),
                table.as_mut_ptr(), table.len(), origins.as_mut_ptr(), origins.len(),
                states.as_mut_ptr(), states.len(), &mut length)
        };
        (refused, length)
    }

    pub fn cascade_readings(left: &[u8], right: &[u8], string: &[u16]) -> (u32, u32) {
        let mut number = DIRTY;
        let refused = unsafe {
            forthwn_cascade_readings(left.as_ptr(), left.len(), right.as_ptr(), right.len(),
                string.as_ptr(), string.len(), &mut number)
        };
        (refused, number)
    }

    pub fn cascade_list(left: &[u8], right: &[u8], code: &[u8], out: &mut [u8]) -> (u32, u32, u32) {
        let mut length = DIRTY;
        let mut said = DIRTY;
        let refused = unsafe {
            forthwn_cascade_list(left.as_ptr(), left.len(), right.as_ptr(), right.len(),
                code.as_ptr(), code.len(), out.as_mut_ptr(), out.len(), &mut length, &mut said)
        };
        (refused, length, said)
    }
}

#[cfg(any(have_all, have_cascade))]
pub use cascades::*;
#[cfg(not(any(have_all, have_cascade)))]
pub use crate::model::{cascade, cascade_list, cascade_readings};
