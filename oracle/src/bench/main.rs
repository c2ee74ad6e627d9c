//! Times the Rust and the ported calls on the same inputs, and prints nanoseconds a call and the ratio to the Rust's.
//!
//! Every side fills its tables, makes a call for each row of the inputs and adds the answers up. The sums must agree: a
//! sum that differs ends the run with status 1. What filling takes is measured with no rows and taken off.

mod inputs;
mod linked;
mod ported;
mod rust_calls;

use std::hint::black_box;
use std::process::ExitCode;

/// A side's run: the size of the tables and the rows.
type Run = fn(u16, &[u64]) -> u64;

/// The sides, the Rust's first: the exported form, the core form and the linked form are set beside it.
const SIDES: usize = 4;

/// A call by its name, its inputs, and a run of each side that has one.
pub struct Call {
    name: &'static str,
    rows: inputs::Make,
    runs: [Option<Run>; SIDES],
}

const fn beside(rust: Run, [exported, core]: ported::Forms, linked: Run) -> [Option<Run>; SIDES] {
    [Some(rust), Some(exported), Some(core), Some(linked)]
}

const CALLS: [Call; 8] = [
    Call {
        name: "next hop",
        rows: inputs::queries,
        runs: [Some(rust_calls::next_hops), None, None, Some(linked::NEXT_HOP)],
    },
    Call {
        name: "request",
        rows: inputs::requests,
        runs: beside(rust_calls::requests, ported::REQUEST, linked::REQUEST),
    },
    Call { name: "reply", rows: inputs::replies, runs: beside(rust_calls::replies, ported::REPLY, linked::REPLY) },
    Call { name: "begin", rows: inputs::begins, runs: beside(rust_calls::begins, ported::BEGIN, linked::BEGIN) },
    Call { name: "record", rows: inputs::records, runs: beside(rust_calls::records, ported::RECORD, linked::RECORD) },
    Call {
        name: "route query",
        rows: inputs::queries,
        runs: beside(rust_calls::queries, ported::QUERY, linked::QUERY),
    },
    Call { name: "link status", rows: inputs::links, runs: beside(rust_calls::links, ported::LINK, linked::LINK) },
    Call {
        name: "decision",
        rows: inputs::decisions,
        runs: beside(rust_calls::decisions, ported::DECISION, linked::DECISION),
    },
];

/// Empty, half full and full.
const SIZES: [u16; 3] = [0, 32, 64];

unsafe extern "C" {
    /// The C library's clocks, which the standard library reads too.
    fn clock_gettime(clock: i32, time: *mut [i64; 2]) -> i32;
}

/// The processor time of this thread so far, in nanoseconds: what else runs on the machine is not counted.
fn thread_time() -> u64 {
    const THREAD: i32 = 3;
    let mut time = [0i64; 2];
    // SAFETY: the clock writes its seconds and nanoseconds to the two numbers.
    let done = unsafe { clock_gettime(THREAD, &mut time) };
    assert_eq!(done, 0, "this system has no clock for a thread");
    time[0] as u64 * 1_000_000_000 + time[1] as u64
}

fn nanos(run: Run, size: u16, rows: &[u64]) -> u64 {
    let start = thread_time();
    black_box(run(black_box(size), black_box(rows)));
    thread_time() - start
}

/// The least time of each side for a call, over some turns in which the sides take their turn one after the other.
fn measure(call: &Call, size: u16, rows: &[u64], turns: u64) -> [Option<f64>; SIDES] {
    let (mut with, mut without) = ([u64::MAX; SIDES], [u64::MAX; SIDES]);
    for _ in 0..turns {
        for (side, run) in call.runs.iter().enumerate() {
            if let Some(run) = *run {
                without[side] = without[side].min(nanos(run, size, &[]));
                with[side] = with[side].min(nanos(run, size, rows));
            }
        }
    }
    let calls = (rows.len() / inputs::ROW) as f64;
    std::array::from_fn(|side| call.runs[side].map(|_| with[side].saturating_sub(without[side]) as f64 / calls))
}

/// Whether the sums of all sides agree; where they do not, says so.
fn agree(call: &Call, size: u16, rows: &[u64]) -> bool {
    let sums = call.runs.map(|run| run.map(|run| run(size, rows)));
    let same = sums.iter().flatten().all(|&sum| Some(sum) == sums[0]);
    if !same {
        println!("{} at {size}: the answers differ: Rust, exported, core and linked {sums:?}", call.name);
    }
    same
}

fn line(call: &Call, size: u16, times: [Option<f64>; SIDES]) {
    let rust = times[0].unwrap_or(f64::NAN);
    print!("| {:<11} | {size:>4} | {rust:>8.1} |", call.name);
    for time in &times[1..] {
        match time {
            Some(time) => print!(" {time:>8.1} | {:>6.1} |", time / rust),
            None => print!(" {:>8} | {:>6} |", "", ""),
        }
    }
    println!();
}

fn main() -> ExitCode {
    let mut given = std::env::args().skip(1).map(|word| word.parse::<u64>());
    let (Ok(seed), Ok(turns)) = (given.next().unwrap_or(Ok(1)), given.next().unwrap_or(Ok(9))) else {
        eprintln!("usage: bench [SEED [TURNS]]");
        return ExitCode::from(2);
    };
    println!("| call        | rows |  Rust ns | exported |  ratio |     core |  ratio |   linked |  ratio |");
    println!("|-------------|------|----------|----------|--------|----------|--------|----------|--------|");
    let mut same = true;
    for call in &CALLS {
        for size in SIZES {
            let rows = (call.rows)(seed, size);
            same &= agree(call, size, &rows);
            line(call, size, measure(call, size, &rows, turns.max(1)));
        }
    }
    println!("{}", if same { "the sums of the answers agree" } else { "the sums of the answers DIFFER" });
    if same { ExitCode::SUCCESS } else { ExitCode::from(1) }
}
