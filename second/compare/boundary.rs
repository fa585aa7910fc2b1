//! The unit as C calls it: each slice is a pointer and a length in entries. The calls in `ask` are safe
//! since every pointer and length come from one `Lent`, which outlives the call and overlaps no other.

use reference::answer::Answer;
use reference::plan::Arc;

extern "C" {
    pub fn blenrop_flow(
        arcs: *const u32,
        arcs_length: usize,
        supplies: *const i32,
        supplies_length: usize,
        arc_buffer: *mut u32,
        arc_buffer_length: usize,
        node_buffer: *mut u8,
        node_buffer_length: usize,
    ) -> Answer;

    pub fn blenrop_flow_arcs(
        arcs: *const Arc,
        arcs_length: usize,
        supplies: *const i32,
        supplies_length: usize,
        arc_buffer: *mut u32,
        arc_buffer_length: usize,
        node_buffer: *mut u8,
        node_buffer_length: usize,
    ) -> Answer;

    pub fn blenrop_narrow(
        arcs: *const u32,
        arcs_length: usize,
        supplies: *const i32,
        supplies_length: usize,
        lows: *mut u32,
        lows_length: usize,
        highs: *mut u32,
        highs_length: usize,
    ) -> Answer;

    pub fn blenrop_narrow_arcs(
        arcs: *const Arc,
        arcs_length: usize,
        supplies: *const i32,
        supplies_length: usize,
        lows: *mut u32,
        lows_length: usize,
        highs: *mut u32,
        highs_length: usize,
    ) -> Answer;

    pub fn blenrop_reason(
        arcs: *const u32,
        arcs_length: usize,
        supplies: *const i32,
        supplies_length: usize,
        arc: u32,
        end: u32,
        arc_buffer: *mut u32,
        arc_buffer_length: usize,
        node_buffer: *mut u8,
        node_buffer_length: usize,
    ) -> Answer;

    pub fn blenrop_held(
        arcs: *const u32,
        arcs_length: usize,
        supplies: *const i32,
        supplies_length: usize,
        arc: u32,
        count: u32,
        arc_buffer: *mut u32,
        arc_buffer_length: usize,
    ) -> Answer;

    pub fn blenrop_count(
        domains: *const u64,
        domains_length: usize,
        counts: *const u32,
        counts_length: usize,
        new_domains: *mut u64,
        new_domains_length: usize,
        new_lows: *mut u32,
        new_lows_length: usize,
        new_highs: *mut u32,
        new_highs_length: usize,
    ) -> Answer;

    pub fn blenrop_count_network(
        domains: *const u64,
        domains_length: usize,
        counts: *const u32,
        counts_length: usize,
        supplies: *mut i32,
        supplies_length: usize,
        arcs: *mut u32,
        arcs_length: usize,
    ) -> Answer;

    pub fn blenrop_file_read(
        file: *const u8,
        file_length: usize,
        supplies: *mut i32,
        supplies_length: usize,
        arcs: *mut u32,
        arcs_length: usize,
    ) -> Answer;

    pub fn blenrop_file_write(
        arcs: *const u32,
        arcs_length: usize,
        supplies: *const i32,
        supplies_length: usize,
        file: *mut u8,
        file_length: usize,
    ) -> Answer;

    pub fn blenrop_file_payload(file: *const u8, file_length: usize, block: u32) -> Answer;
}
