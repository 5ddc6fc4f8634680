//! The exports of libforthwn.a. The C header says what each does.
use crate::{Cost, Weight};
use crate::lent::{Head, Told};

// The library fills them as four numbers of 32 bits and three of 64.
const _: () = assert!(size_of::<Head>() == 16 && size_of::<Told>() == 24);

#[rustfmt::skip]
unsafe extern "C" {
    pub fn forthwn_refusal(bytes: *const u8, bytes_len: usize) -> u32;
    pub fn forthwn_read(
        bytes: *const u8, bytes_len: usize,
        final_states: *mut u16, final_states_len: usize, final_weights: *mut Weight, final_weights_len: usize,
        fields: *mut u16, fields_len: usize, arc_weights: *mut Weight, arc_weights_len: usize,
        head: *mut Head,
    ) -> u32;
    pub fn forthwn_write(
        states: u32, arcs: u32, finals: u32, start: u32,
        final_states: *const u16, final_states_len: usize, final_weights: *const Weight, final_weights_len: usize,
        fields: *const u16, fields_len: usize, arc_weights: *const Weight, arc_weights_len: usize,
        out: *mut u8, out_len: usize, len: *mut u32,
    ) -> u32;
    pub fn forthwn_compose(
        left: *const u8, left_len: usize, right: *const u8, right_len: usize,
        table: *mut u8, table_len: usize, origins: *mut u16, origins_len: usize, states: *mut u32, states_len: usize, len: *mut u32,
    ) -> u32;
    pub fn forthwn_apply(
        string: *const u16, string_len: usize, table: *const u8, table_len: usize,
        lattice: *mut u8, lattice_len: usize, origins: *mut u16, origins_len: usize, pairs: *mut u32, pairs_len: usize, len: *mut u32,
    ) -> u32;
    pub fn forthwn_trim(
        table: *const u8, table_len: usize, out: *mut u8, out_len: usize, origins: *mut u16, origins_len: usize, len: *mut u32,
    ) -> u32;
    pub fn forthwn_count(table: *const u8, table_len: usize, count: *mut u32) -> u32;
    pub fn forthwn_nth(
        table: *const u8, table_len: usize, k: u32, arcs: *mut u16, arcs_len: usize, labels: *mut u16, labels_len: usize, path: *mut Told,
    ) -> u32;
    pub fn forthwn_shortest(
        table: *const u8, table_len: usize, arcs: *mut u16, arcs_len: usize, labels: *mut u16, labels_len: usize, path: *mut Told,
    ) -> u32;
    pub fn forthwn_distance(table: *const u8, table_len: usize, cells: *mut Cost, cells_len: usize) -> u32;
    pub fn forthwn_readings(
        left: *const u8, left_len: usize, right: *const u8, right_len: usize, string: *const u16, string_len: usize, count: *mut u32,
    ) -> u32;
    pub fn forthwn_list(
        left: *const u8, left_len: usize, right: *const u8, right_len: usize, code: *const u8, code_len: usize,
        out: *mut u8, out_len: usize, len: *mut u32, said: *mut u32,
    ) -> u32;
    pub fn forthwn_cascade(
        left: *const u8, left_len: usize, right: *const u8, right_len: usize, string: *const u16, string_len: usize,
        table: *mut u8, table_len: usize, origins: *mut u16, origins_len: usize, states: *mut u32, states_len: usize, len: *mut u32,
    ) -> u32;
    pub fn forthwn_cascade_readings(
        left: *const u8, left_len: usize, right: *const u8, right_len: usize, string: *const u16, string_len: usize, count: *mut u32,
    ) -> u32;
    pub fn forthwn_cascade_list(
        left: *const u8, left_len: usize, right: *const u8, right_len: usize, code: *const u8, code_len: usize,
        out: *mut u8, out_len: usize, len: *mut u32, said: *mut u32,
    ) -> u32;
}
