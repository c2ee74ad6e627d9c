//! The library for gateways, by the typed functions of its C header: the loops of `linked.c`, which keep the states.

use super::Run;

unsafe extern "C" {
    fn linked_next_hop(size: u16, rows: *const u64, count: usize) -> u64;
    fn linked_request(size: u16, rows: *const u64, count: usize) -> u64;
    fn linked_reply(size: u16, rows: *const u64, count: usize) -> u64;
    fn linked_begin(size: u16, rows: *const u64, count: usize) -> u64;
    fn linked_record(size: u16, rows: *const u64, count: usize) -> u64;
    fn linked_route_query(size: u16, rows: *const u64, count: usize) -> u64;
    fn linked_link_status(size: u16, rows: *const u64, count: usize) -> u64;
    fn linked_decision(size: u16, rows: *const u64, count: usize) -> u64;
}

fn run(call: unsafe extern "C" fn(u16, *const u64, usize) -> u64, size: u16, rows: &[u64]) -> u64 {
    // SAFETY: the rows are lent for the call as a slice is, by its pointer and its length; the benchmark has one thread.
    unsafe { call(size, rows.as_ptr(), rows.len()) }
}

pub const NEXT_HOP: Run = |size, rows| run(linked_next_hop, size, rows);
pub const REQUEST: Run = |size, rows| run(linked_request, size, rows);
pub const REPLY: Run = |size, rows| run(linked_reply, size, rows);
pub const BEGIN: Run = |size, rows| run(linked_begin, size, rows);
pub const RECORD: Run = |size, rows| run(linked_record, size, rows);
pub const QUERY: Run = |size, rows| run(linked_route_query, size, rows);
pub const LINK: Run = |size, rows| run(linked_link_status, size, rows);
pub const DECISION: Run = |size, rows| run(linked_decision, size, rows);
