//! How entries lie in the columns of a state. Only this module knows; a caller of the crate has no need to.

use super::table::Table;
use warpteasel::{
    NeighborsColumns, RelayStore, RoutingColumns, MAX_DISCOVERIES, MAX_NEIGHBORS, MAX_RECORDS, MAX_RELAYS, MAX_ROUTES,
};

pub type Routes = Table<3, MAX_ROUTES>;
pub type Discoveries = Table<3, MAX_DISCOVERIES>;
/// A record's row: its destination, how many relays it has, and the row of the store.
pub type Records = Table<{ 2 + MAX_RELAYS }, MAX_RECORDS>;
pub type NeighborRows = Table<10, MAX_NEIGHBORS>;
pub type Waiting = Table<2, MAX_NEIGHBORS>;

/// Fields from the lowest bit on, each a width in bits and a value.
fn packed(fields: &[(u32, u64)]) -> u64 {
    fields.iter().rev().fold(0, |word, (width, value)| (word << width) | value)
}

/// The values of fields of these widths, from the lowest bit on.
fn unpacked<const W: usize>(mut word: u64, widths: [u32; W]) -> [u64; W] {
    widths.map(|width| {
        let value = word & ((1 << width) - 1);
        word >>= width;
        value
    })
}

pub fn routes(c: &RoutingColumns) -> Routes {
    Table::of(c.routes, |i| [c.route_keys[i].into(), c.route_words[i], c.route_usage[i].into()])
}

pub fn routes_formed(t: &Routes) -> bool {
    t.ordered() && t.rows.iter().all(|row| row[1] < 1 << 38)
}

pub fn set_routes(c: &mut RoutingColumns, t: &Routes) {
    for (i, row) in t.rows.iter().enumerate() {
        (c.route_keys[i], c.route_words[i], c.route_usage[i]) = (row[0] as u16, row[1], row[2] as u32);
    }
    c.routes = t.count;
}

/// The row of `put_route`'s numbers, and back.
pub fn route_row(n: &[u64; 10]) -> [u64; 3] {
    let [destination, status, no_cache, many_to_one, required, expired, hop, cost, total, recent] = *n;
    let flags = [(1, no_cache), (1, many_to_one), (1, required), (1, expired)];
    [destination, packed(&[[(16, hop), (8, cost), (8, recent), (2, status)], flags].concat()), total]
}

pub fn route_numbers([destination, word, total]: &[u64; 3]) -> [u64; 10] {
    let [hop, cost, recent, status, no_cache, many_to_one, required, expired] =
        unpacked(*word, [16, 8, 8, 2, 1, 1, 1, 1]);
    [*destination, status, no_cache, many_to_one, required, expired, hop, cost, *total, recent]
}

pub fn discoveries(c: &RoutingColumns) -> Discoveries {
    Table::of(c.discoveries, |i| [c.discovery_keys[i].into(), c.discovery_words[i], c.discovery_ends[i]])
}

pub fn discoveries_formed(t: &Discoveries) -> bool {
    t.ordered() && t.rows.iter().all(|row| row[0] < 1 << 24 && row[1] < 1 << 48)
}

pub fn set_discoveries(c: &mut RoutingColumns, t: &Discoveries) {
    for (i, row) in t.rows.iter().enumerate() {
        (c.discovery_keys[i], c.discovery_words[i], c.discovery_ends[i]) = (row[0] as u32, row[1], row[2]);
    }
    c.discoveries = t.count;
}

/// The row of `put_discovery`'s numbers, and back.
pub fn discovery_row(n: &[u64; 7]) -> [u64; 3] {
    let [source, id, sender, forward, residual, end, destination] = *n;
    let word = packed(&[(16, sender), (16, destination), (8, forward), (8, residual)]);
    [packed(&[(8, id), (16, source)]), word, end]
}

pub fn discovery_numbers([key, word, end]: &[u64; 3]) -> [u64; 7] {
    let [id, source] = unpacked(*key, [8, 16]);
    let [sender, destination, forward, residual] = unpacked(*word, [16, 16, 8, 8]);
    [source, id, sender, forward, residual, *end, destination]
}

/// The records with the rows of a store of which so many numbers are lent; what is past them reads 0.
pub fn records(c: &RoutingColumns, store: &RelayStore, lent: usize) -> Records {
    Table::of(c.records, |i| {
        let mut row = [0; 2 + MAX_RELAYS];
        (row[0], row[1]) = (c.record_keys[i].into(), c.record_lengths[i].into());
        for (j, relay) in row[2..].iter_mut().enumerate() {
            let place = MAX_RELAYS * i + j;
            *relay = if place < lent { store.numbers()[place].into() } else { 0 };
        }
        row
    })
}

/// Whether the records are well formed and the store's rows agree with them.
pub fn records_formed(t: &Records) -> bool {
    let fits = |row: &[u64; 2 + MAX_RELAYS]| {
        row[1] <= MAX_RELAYS as u64 && row[2 + row[1] as usize..].iter().all(|relay| *relay == 0)
    };
    t.ordered() && t.rows.iter().all(fits)
}

pub fn set_records(c: &mut RoutingColumns, store: &mut RelayStore, t: &Records) {
    let mut numbers = *store.numbers();
    for (i, row) in t.rows.iter().enumerate() {
        (c.record_keys[i], c.record_lengths[i]) = (row[0] as u16, row[1] as u8);
        for (j, relay) in row[2..].iter().enumerate() {
            numbers[MAX_RELAYS * i + j] = *relay as u16;
        }
    }
    c.records = t.count;
    *store = RelayStore::from_numbers(numbers);
}

pub fn record_row(destination: u64, relays: &[u64]) -> [u64; 2 + MAX_RELAYS] {
    let mut row = [0; 2 + MAX_RELAYS];
    (row[0], row[1]) = (destination, relays.len() as u64);
    row[2..][..relays.len()].copy_from_slice(relays);
    row
}

pub fn neighbors(c: &NeighborsColumns) -> NeighborRows {
    Table::of(c.count, |i| {
        [
            c.keys[i],
            c.nwks[i].into(),
            c.links[i],
            c.counts[i],
            c.deadlines[i],
            c.periods[i],
            c.heard[i],
            c.added[i],
            c.beacons[i],
            c.bytes[i],
        ]
    })
}

/// Whether the columns make a table. What a neighbor's cost and samples say is not asked here; the calls ask it.
pub fn neighbors_formed(t: &NeighborRows) -> bool {
    t.ordered() && t.rows.iter().all(|row| (row[2] >> 50) & 3 < 3 && row[2] >> 52 < 10)
}

pub fn set_neighbors(c: &mut NeighborsColumns, t: &NeighborRows) {
    for (i, row) in t.rows.iter().enumerate() {
        let [key, nwk, link, counts, deadline, period, heard, added, beacon, bytes] = *row;
        (c.keys[i], c.nwks[i], c.links[i], c.counts[i], c.deadlines[i]) = (key, nwk as u16, link, counts, deadline);
        (c.periods[i], c.heard[i], c.added[i], c.beacons[i], c.bytes[i]) = (period, heard, added, beacon, bytes);
    }
    c.count = t.count;
}

/// A ring of samples as a word: three samples, how many are held, the next place. Any bytes are taken.
fn ring_word([held, next, first, second, third]: [u64; 5]) -> u64 {
    packed(&[(8, first), (8, second), (8, third), (8, held), (8, next)])
}

fn ring_numbers(word: u64) -> [u64; 5] {
    let [first, second, third, held, next] = unpacked(word, [8; 5]);
    [held, next, first, second, third]
}

/// The row of `put_neighbour`'s numbers, and back.
pub fn neighbor_row(n: &[u64; 27]) -> [u64; 10] {
    let [eui64, nwk, kind, rx_on, config, timeout, period, relation, failures, rest @ ..] = *n;
    let [held, next, first, second, third, cost, heard, beacon, offset, keepalive, rest @ ..] = rest;
    let [sent, received, added, connectivity, diversity, outbound, inbound, timer] = rest;
    let ring = ring_word([held, next, first, second, third]);
    let link = packed(&[(40, ring), (8, cost), (1, rx_on), (1, keepalive), (2, kind), (12, relation)]);
    let counters = [(8, failures), (8, connectivity), (8, diversity), (8, outbound), (8, inbound), (8, timer)];
    let counts = packed(&[&counters[..], &[(16, config)]].concat());
    let (beacons, bytes) = (packed(&[(32, beacon), (32, offset)]), packed(&[(32, sent), (32, received)]));
    [eui64, nwk, link, counts, timeout, period, heard, added, beacons, bytes]
}

pub fn neighbor_numbers(row: &[u64; 10]) -> [u64; 27] {
    let [eui64, nwk, link, counts, timeout, period, heard, added, beacons, bytes] = *row;
    let [ring, cost, rx_on, keepalive, kind, relation] = unpacked(link, [40, 8, 1, 1, 2, 12]);
    let [held, next, first, second, third] = ring_numbers(ring);
    let [failures, connectivity, diversity, outbound, inbound, timer, config] =
        unpacked(counts, [8, 8, 8, 8, 8, 8, 16]);
    let ([beacon, offset], [sent, received]) = (unpacked(beacons, [32; 2]), unpacked(bytes, [32; 2]));
    [
        eui64,
        nwk,
        kind.min(2),
        rx_on,
        config,
        timeout,
        period,
        relation.min(9),
        failures,
        held,
        next,
        first,
        second,
        third,
        cost,
        heard,
        beacon,
        offset,
        keepalive,
        sent,
        received,
        added,
        connectivity,
        diversity,
        outbound,
        inbound,
        timer,
    ]
}

pub fn waiting(c: &NeighborsColumns) -> Waiting {
    Table::of(c.waiting, |i| [c.senders[i].into(), c.samples[i]])
}

pub fn waiting_formed(t: &Waiting) -> bool {
    t.ordered() && t.rows.iter().all(|row| row[1] < 1 << 40)
}

pub fn set_waiting(c: &mut NeighborsColumns, t: &Waiting) {
    for (i, row) in t.rows.iter().enumerate() {
        (c.senders[i], c.samples[i]) = (row[0] as u16, row[1]);
    }
    c.waiting = t.count;
}

/// The row of `put_waiting`'s numbers, and back.
pub fn waiting_row(n: &[u64; 6]) -> [u64; 2] {
    let [sender, ring @ ..] = *n;
    [sender, ring_word(ring)]
}

pub fn waiting_numbers([sender, samples]: &[u64; 2]) -> [u64; 6] {
    let [held, next, first, second, third] = ring_numbers(*samples);
    [*sender, held, next, first, second, third]
}
