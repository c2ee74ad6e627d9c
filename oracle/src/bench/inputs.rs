//! The rows of each call, from a seed. Every address that a call may put into a table is one that the table has, so that
//! a full table refuses nothing; an empty one gets a single entry.

use oracle::draw::Random;

/// A row is eight numbers.
pub const ROW: usize = 8;
/// The rows of a call on tables of a size, from a seed.
pub type Make = fn(u64, u16) -> Vec<u64>;

const ROWS: u64 = 20_000;
/// The moments of two rows are further apart than the span of what a row begins.
const STEP: u64 = 2_000;
const SPAN: u64 = 1_000;
const NEIGHBOR: u64 = 2_000;

fn made(count: u64, mut row: impl FnMut(u64) -> [u64; ROW]) -> Vec<u64> {
    (0..count).flat_map(|k| row(k)).collect()
}

/// How many searches are open: those of 1 and of the addresses after it, each under the id 1.
fn searches(size: u16) -> u64 {
    u64::from(size / 2).saturating_sub(1)
}

/// An address of the tables, or 1 where they are empty.
fn address(random: &mut Random, size: u16) -> u64 {
    1 + random.below(u64::from(size).max(1))
}

/// Rows that better an open search's cost by one each, so many that the costs last.
fn improving(size: u16) -> u64 {
    searches(size) * 190
}

/// A third betters an open search, a third is worse than it, and a third opens one of its own.
pub fn requests(seed: u64, size: u16) -> Vec<u64> {
    let (mut random, open) = (Random::new(seed), searches(size));
    let count = if open == 0 { ROWS } else { 3 * improving(size) };
    made(count, |k| {
        let (turn, moment) = (k / 3, STEP * (k + 1));
        let (originator, id, cost) = match k % 3 {
            0 if open > 0 => (1 + turn % open, 1, 199 - turn / open),
            1 if open > 0 => (1 + random.below(open), 1, 255),
            _ => (address(&mut random, size), 2 + random.below(250), random.below(250)),
        };
        [originator, id, 3_000, NEIGHBOR + random.below(8), cost, 0, moment, 0]
    })
}

/// Half better an open search and are relayed; the others are dropped, for a search that is not known or a worse cost.
pub fn replies(seed: u64, size: u16) -> Vec<u64> {
    let (mut random, open) = (Random::new(seed), searches(size));
    let count = if open == 0 { ROWS } else { 2 * improving(size) };
    made(count, |k| {
        let (turn, responder) = (k / 2, address(&mut random, size));
        let (originator, id, cost) = match k % 4 {
            0 | 2 if open > 0 => (1 + turn % open, 1, 199 - turn / open),
            1 if open > 0 => (1 + random.below(open), 1, 255),
            _ => (address(&mut random, size), 7, random.below(250)),
        };
        [4_000, originator, id, responder, NEIGHBOR + random.below(8), cost, 0, 0]
    })
}

pub fn begins(seed: u64, size: u16) -> Vec<u64> {
    let mut random = Random::new(seed);
    made(ROWS, |k| [4_000, address(&mut random, size), STEP * (k + 1), SPAN, 0, 0, 0, 0])
}

/// Sources and relays of the table, at most three relays; an empty table gets the record of 1, with none.
pub fn records(seed: u64, size: u16) -> Vec<u64> {
    let mut random = Random::new(seed);
    made(ROWS, |_| {
        let count = if size == 0 { 0 } else { random.below(4) };
        let [source, a, b, c] = [0; 4].map(|_| address(&mut random, size));
        [source, count, a, b, c, 0, 0, 0]
    })
}

/// Of four destinations one has neither a record nor a route.
pub fn queries(seed: u64, size: u16) -> Vec<u64> {
    let mut random = Random::new(seed);
    made(ROWS, |_| {
        let near = address(&mut random, size);
        let destination = if random.below(4) == 0 { 5_000 + near } else { near };
        [destination, 12, 0, 0, 0, 0, 0, 0]
    })
}

/// From a neighbour that the table has. Our own address is one of the command's eight in half of the rows.
pub fn links(seed: u64, size: u16) -> Vec<u64> {
    let mut random = Random::new(seed);
    made(ROWS, |k| {
        let sender = address(&mut random, size);
        [1 + random.below(16), sender, sender, random.below(256), k, 0, 0, 0]
    })
}

/// Of four destinations one has no way.
pub fn decisions(seed: u64, size: u16) -> Vec<u64> {
    queries(seed, size)
}
