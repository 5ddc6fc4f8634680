// The model behind the C interface of the library, to try the driver without
// the library: as libforthwn.a
//
//   rustc -O --edition 2021 --crate-type staticlib --crate-name forthwn \
//         tests/second/shim.rs --out-dir target/shim
//
// or, with `--crate-type cdylib`, as a shared library that faults.py swaps.
// `--cfg faulty` takes the model from faulty.rs, which faults.py writes.
#![allow(unexpected_cfgs, clippy::missing_safety_doc, clippy::too_many_arguments)]

#[cfg(not(faulty))]
mod model;
#[cfg(faulty)]
#[path = "faulty.rs"]
mod model;

use std::slice::{from_raw_parts as view, from_raw_parts_mut as lent};

#[no_mangle]
pub unsafe extern "C" fn forthwn_refusal(bytes: *const u8, n: usize) -> u32 {
    model::refusal(view(bytes, n))
}

#[no_mangle]
#[rustfmt::skip]
pub unsafe extern "C" fn forthwn_read(bytes: *const u8, n: usize, a: *mut u16, a_n: usize,
    b: *mut i32, b_n: usize, c: *mut u16, c_n: usize, d: *mut i32, d_n: usize, head: *mut [u32; 4]) -> u32 {
    let (r, x) = model::read(view(bytes, n), lent(a, a_n), lent(b, b_n), lent(c, c_n), lent(d, d_n));
    *head = x;
    r
}

#[no_mangle]
#[rustfmt::skip]
pub unsafe extern "C" fn forthwn_write(n: u32, m: u32, f: u32, start: u32, a: *const u16, a_n: usize,
    b: *const i32, b_n: usize, c: *const u16, c_n: usize, d: *const i32, d_n: usize,
    out: *mut u8, out_n: usize, length: *mut u32) -> u32 {
    let head = [n, m, f, start];
    let (r, x) = model::write(head, view(a, a_n), view(b, b_n), view(c, c_n), view(d, d_n), lent(out, out_n));
    *length = x;
    r
}

#[no_mangle]
#[rustfmt::skip]
pub unsafe extern "C" fn forthwn_compose(left: *const u8, left_n: usize, right: *const u8, right_n: usize,
    t: *mut u8, t_n: usize, o: *mut u16, o_n: usize, s: *mut u32, s_n: usize, length: *mut u32) -> u32 {
    let (left, right) = (view(left, left_n), view(right, right_n));
    let (r, x) = model::compose(left, right, lent(t, t_n), lent(o, o_n), lent(s, s_n));
    *length = x;
    r
}

#[no_mangle]
#[rustfmt::skip]
pub unsafe extern "C" fn forthwn_trim(bytes: *const u8, n: usize, t: *mut u8, t_n: usize,
    o: *mut u16, o_n: usize, length: *mut u32) -> u32 {
    let (r, x) = model::trim(view(bytes, n), lent(t, t_n), lent(o, o_n));
    *length = x;
    r
}

#[no_mangle]
#[rustfmt::skip]
pub unsafe extern "C" fn forthwn_apply(code: *const u16, code_n: usize, bytes: *const u8, n: usize,
    t: *mut u8, t_n: usize, o: *mut u16, o_n: usize, p: *mut u32, p_n: usize, length: *mut u32) -> u32 {
    let (r, x) = model::apply(view(code, code_n), view(bytes, n), lent(t, t_n), lent(o, o_n), lent(p, p_n));
    *length = x;
    r
}

#[no_mangle]
pub unsafe extern "C" fn forthwn_count(bytes: *const u8, n: usize, count: *mut u32) -> u32 {
    let (r, x) = model::count(view(bytes, n));
    *count = x;
    r
}

#[no_mangle]
#[rustfmt::skip]
pub unsafe extern "C" fn forthwn_nth(bytes: *const u8, n: usize, k: u32, a: *mut u16, a_n: usize,
    l: *mut u16, l_n: usize, told: *mut [i64; 3]) -> u32 {
    let (r, (cost, arcs, labels)) = model::nth(view(bytes, n), k, lent(a, a_n), lent(l, l_n));
    *told = [cost, arcs as i64, labels as i64];
    r
}

#[no_mangle]
#[rustfmt::skip]
pub unsafe extern "C" fn forthwn_shortest(bytes: *const u8, n: usize, a: *mut u16, a_n: usize,
    l: *mut u16, l_n: usize, told: *mut [i64; 3]) -> u32 {
    let (r, (cost, arcs, labels)) = model::shortest(view(bytes, n), lent(a, a_n), lent(l, l_n));
    *told = [cost, arcs as i64, labels as i64];
    r
}

#[no_mangle]
pub unsafe extern "C" fn forthwn_distance(bytes: *const u8, n: usize, cells: *mut i64, cells_n: usize) -> u32 {
    model::distance(view(bytes, n), lent(cells, cells_n))
}

#[no_mangle]
#[rustfmt::skip]
pub unsafe extern "C" fn forthwn_readings(left: *const u8, left_n: usize, right: *const u8, right_n: usize,
    code: *const u16, code_n: usize, count: *mut u32) -> u32 {
    let (r, x) = model::readings(view(left, left_n), view(right, right_n), view(code, code_n));
    *count = x;
    r
}

#[no_mangle]
#[rustfmt::skip]
pub unsafe extern "C" fn forthwn_list(left: *const u8, left_n: usize, right: *const u8, right_n: usize,
    code: *const u8, code_n: usize, out: *mut u8, out_n: usize, length: *mut u32, said: *mut u32) -> u32 {
    let (r, x, y) = model::list(view(left, left_n), view(right, right_n), view(code, code_n), lent(out, out_n));
    *length = x;
    *said = y;
    r
}

#[no_mangle]
#[rustfmt::skip]
pub unsafe extern "C" fn forthwn_cascade(left: *const u8, left_n: usize, right: *const u8, right_n: usize,
    code: *const u16, code_n: usize, t: *mut u8, t_n: usize, o: *mut u16, o_n: usize, s: *mut u32, s_n: usize,
    length: *mut u32) -> u32 {
    let (left, right, code) = (view(left, left_n), view(right, right_n), view(code, code_n));
    let (r, x) = model::cascade(left, right, code, lent(t, t_n), lent(o, o_n), lent(s, s_n));
    *length = x;
    r
}

#[no_mangle]
#[rustfmt::skip]
pub unsafe extern "C" fn forthwn_cascade_readings(left: *const u8, left_n: usize, right: *const u8, right_n: usize,
    code: *const u16, code_n: usize, count: *mut u32) -> u32 {
    let (r, x) = model::cascade_readings(view(left, left_n), view(right, right_n), view(code, code_n));
    *count = x;
    r
}

#[no_mangle]
#[rustfmt::skip]
pub unsafe extern "C" fn forthwn_cascade_list(left: *const u8, left_n: usize, right: *const u8, right_n: usize,
    code: *const u8, code_n: usize, out: *mut u8, out_n: usize, length: *mut u32, said: *mut u32) -> u32 {
    let (r, x, y) = model::cascade_list(view(left, left_n), view(right, right_n), view(code, code_n), lent(out, out_n));
    *length = x;
    *said = y;
    r
}
