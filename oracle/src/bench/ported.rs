//! The static library `speed`: its functions, and a run of each form of them.

use super::Run;

/// A function of the library on tables alone: the size, whether the exported form is run, and the rows.
type Plain = unsafe extern "C" fn(u16, bool, *const u64, usize) -> u64;
/// The same with a relay store lent.
type Lent = unsafe extern "C" fn(u16, bool, *const u64, usize, *mut u16, usize) -> u64;

unsafe extern "C" {
    fn warpteasel_speed_request(size: u16, exported: bool, rows: *const u64, count: usize) -> u64;
    fn warpteasel_speed_reply(size: u16, exported: bool, rows: *const u64, count: usize) -> u64;
    fn warpteasel_speed_begin(size: u16, exported: bool, rows: *const u64, count: usize) -> u64;
    fn warpteasel_speed_link_status(size: u16, exported: bool, rows: *const u64, count: usize) -> u64;
    fn warpteasel_speed_record(s: u16, e: bool, rows: *const u64, n: usize, store: *mut u16, places: usize) -> u64;
    fn warpteasel_speed_route_query(s: u16, e: bool, rows: *const u64, n: usize, store: *mut u16, places: usize)
    -> u64;
    fn warpteasel_speed_decision(s: u16, e: bool, rows: *const u64, n: usize, store: *mut u16, places: usize) -> u64;
}

fn plain(call: Plain, size: u16, exported: bool, rows: &[u64]) -> u64 {
    // SAFETY: the rows are lent for the call as a slice is, by its pointer and its length.
    unsafe { call(size, exported, rows.as_ptr(), rows.len()) }
}

fn lent(call: Lent, size: u16, exported: bool, rows: &[u64]) -> u64 {
    let mut store = [0u16; 2048];
    // SAFETY: the rows and the store are lent for the call as slices are, and the store is lent to nobody else.
    unsafe { call(size, exported, rows.as_ptr(), rows.len(), store.as_mut_ptr(), store.len()) }
}

/// The exported form's run and the core form's.
pub type Forms = [Run; 2];

pub const REQUEST: Forms = [
    |s, rows| plain(warpteasel_speed_request, s, true, rows),
    |s, rows| plain(warpteasel_speed_request, s, false, rows),
];
pub const REPLY: Forms =
    [|s, rows| plain(warpteasel_speed_reply, s, true, rows), |s, rows| plain(warpteasel_speed_reply, s, false, rows)];
pub const BEGIN: Forms =
    [|s, rows| plain(warpteasel_speed_begin, s, true, rows), |s, rows| plain(warpteasel_speed_begin, s, false, rows)];
pub const LINK: Forms = [
    |s, rows| plain(warpteasel_speed_link_status, s, true, rows),
    |s, rows| plain(warpteasel_speed_link_status, s, false, rows),
];
pub const RECORD: Forms =
    [|s, rows| lent(warpteasel_speed_record, s, true, rows), |s, rows| lent(warpteasel_speed_record, s, false, rows)];
pub const QUERY: Forms = [
    |s, rows| lent(warpteasel_speed_route_query, s, true, rows),
    |s, rows| lent(warpteasel_speed_route_query, s, false, rows),
];
pub const DECISION: Forms = [
    |s, rows| lent(warpteasel_speed_decision, s, true, rows),
    |s, rows| lent(warpteasel_speed_decision, s, false, rows),
];
