//! The words for which the crate has no call: those that put an entry, damage a state or print it.

use super::args::Args;
use super::codec;
use super::table::Table;
use super::{written, Answer, Machine, Stop, Word};
use warpteasel::{
    Neighbors, NeighborsColumns, Refusal, RelayStore, Routing, RoutingColumns, MAX_DISCOVERIES, MAX_NEIGHBORS,
    MAX_RECORDS, MAX_RELAYS, MAX_ROUTES, RELAY_STORE_LENGTH,
};

pub fn word(word: &[u8]) -> Option<Word> {
    Some(match word {
        b"reset" => reset,
        b"put_counters" => put_counters,
        b"put_route" => put_route,
        b"put_discovery" => put_discovery,
        b"put_record" => put_record,
        b"put_neighbour" => put_neighbor,
        b"put_waiting" => put_waiting,
        b"set_route_count" => |m, a| set_routing(m, a, |c, n| c.routes = n),
        b"set_discovery_count" => |m, a| set_routing(m, a, |c, n| c.discoveries = n),
        b"set_record_count" => |m, a| set_routing(m, a, |c, n| c.records = n),
        b"set_neighbour_count" => |m, a| set_neighbors(m, a, |c, n| c.count = n),
        b"set_waiting_count" => |m, a| set_neighbors(m, a, |c, n| c.waiting = n),
        b"set_route_key" => set_route_key,
        b"set_discovery_key" => set_discovery_key,
        b"set_record_key" => set_record_key,
        b"set_neighbour_key" => set_neighbor_key,
        b"set_waiting_key" => set_waiting_key,
        b"set_store" => set_store,
        b"set_store_length" => set_store_length,
        _ => return None,
    })
}

fn reset(m: &mut Machine, a: &mut Args) -> Answer {
    a.end()?;
    *m = Machine::new();
    Ok(vec![])
}

/// Changes the columns of the routing state.
fn routing_changed(m: &mut Machine, change: impl FnOnce(&mut RoutingColumns)) -> Answer {
    let mut columns = m.routing.columns().clone();
    change(&mut columns);
    m.routing = Routing::from_columns(columns);
    Ok(vec![])
}

/// Changes the columns of the neighbors.
fn neighbors_changed(m: &mut Machine, change: impl FnOnce(&mut NeighborsColumns)) -> Answer {
    let mut columns = m.neighbors.columns().clone();
    change(&mut columns);
    m.neighbors = Neighbors::from_columns(columns);
    Ok(vec![])
}

/// Puts a row into a table that is formed; no call where it is not, or where there is no room.
fn put<const W: usize, const N: usize>(formed: bool, table: &mut Table<W, N>, row: [u64; W]) -> Result<(), Stop> {
    if formed && table.put(row) {
        Ok(())
    } else {
        Err(Stop::Bad)
    }
}

/// So many numbers, each by the most that it may be.
fn numbers<const W: usize>(a: &mut Args, most: [u64; W]) -> Result<[u64; W], Stop> {
    let mut all = [0; W];
    for (number, most) in all.iter_mut().zip(most) {
        *number = a.number(most)?;
    }
    a.end()?;
    Ok(all)
}

const FLAG: u64 = 1;
const BYTE: u64 = u8::MAX as u64;
const ADDRESS: u64 = u16::MAX as u64;
const COUNTER: u64 = u32::MAX as u64;
const ANY: u64 = u64::MAX;

fn put_counters(m: &mut Machine, a: &mut Args) -> Answer {
    let [id, errors, failures] = numbers(a, [BYTE; 3])?.map(|number| number as u8);
    routing_changed(m, |c| {
        c.request_sequence_number = id;
        c.mtorr_route_errors = errors;
        c.mtorr_delivery_failures = failures;
    })
}

fn put_route(m: &mut Machine, a: &mut Args) -> Answer {
    let n = numbers(a, [ADDRESS, 3, FLAG, FLAG, FLAG, FLAG, ADDRESS, BYTE, COUNTER, BYTE])?;
    let mut table = codec::routes(m.routing.columns());
    put(codec::routes_formed(&table), &mut table, codec::route_row(&n))?;
    routing_changed(m, |c| codec::set_routes(c, &table))
}

fn put_discovery(m: &mut Machine, a: &mut Args) -> Answer {
    let n = numbers(a, [ADDRESS, BYTE, ADDRESS, BYTE, BYTE, ANY, ADDRESS])?;
    let mut table = codec::discoveries(m.routing.columns());
    put(codec::discoveries_formed(&table), &mut table, codec::discovery_row(&n))?;
    routing_changed(m, |c| codec::set_discoveries(c, &table))
}

fn put_record(m: &mut Machine, a: &mut Args) -> Answer {
    let (destination, relays) = (a.number(ADDRESS)?, a.list(|a| a.number(ADDRESS))?);
    a.end()?;
    if relays.len() > MAX_RELAYS {
        return Err(Refusal::ListTooLong.into());
    }
    let mut table = codec::records(m.routing.columns(), &m.store, m.lent);
    let formed = m.lent == RELAY_STORE_LENGTH && codec::records_formed(&table);
    put(formed, &mut table, codec::record_row(destination, &relays))?;
    let mut store = m.store.clone();
    routing_changed(m, |c| codec::set_records(c, &mut store, &table))?;
    m.store = store;
    Ok(vec![])
}

fn put_neighbor(m: &mut Machine, a: &mut Args) -> Answer {
    let kinds = [
        [ANY, ADDRESS, 2, FLAG, ADDRESS, ANY, ANY, 9, BYTE],
        [BYTE, BYTE, BYTE, BYTE, BYTE, BYTE, ANY, COUNTER, COUNTER],
        [FLAG, COUNTER, COUNTER, ANY, BYTE, BYTE, BYTE, BYTE, BYTE],
    ];
    let n = numbers::<27>(a, std::array::from_fn(|i| kinds[i / 9][i % 9]))?;
    let mut table = codec::neighbors(m.neighbors.columns());
    put(codec::neighbors_formed(&table), &mut table, codec::neighbor_row(&n))?;
    neighbors_changed(m, |c| codec::set_neighbors(c, &table))
}

fn put_waiting(m: &mut Machine, a: &mut Args) -> Answer {
    let n = numbers(a, [ADDRESS, BYTE, BYTE, BYTE, BYTE, BYTE])?;
    let mut table = codec::waiting(m.neighbors.columns());
    put(codec::waiting_formed(&table), &mut table, codec::waiting_row(&n))?;
    neighbors_changed(m, |c| codec::set_waiting(c, &table))
}

fn set_routing(m: &mut Machine, a: &mut Args, set: fn(&mut RoutingColumns, usize)) -> Answer {
    let count = a.place()?;
    a.end()?;
    routing_changed(m, |c| set(c, count))
}

fn set_neighbors(m: &mut Machine, a: &mut Args, set: fn(&mut NeighborsColumns, usize)) -> Answer {
    let count = a.place()?;
    a.end()?;
    neighbors_changed(m, |c| set(c, count))
}

/// A place of a table and a key that its column holds.
fn key(a: &mut Args, places: usize, most: u64) -> Result<(usize, u64), Stop> {
    let (place, key) = (a.place()?, a.any()?);
    a.end()?;
    if place < places && key <= most {
        Ok((place, key))
    } else {
        Err(Stop::Bad)
    }
}

fn set_route_key(m: &mut Machine, a: &mut Args) -> Answer {
    let (place, key) = key(a, MAX_ROUTES, ADDRESS)?;
    routing_changed(m, |c| c.route_keys[place] = key as u16)
}

fn set_discovery_key(m: &mut Machine, a: &mut Args) -> Answer {
    let (place, key) = key(a, MAX_DISCOVERIES, COUNTER)?;
    routing_changed(m, |c| c.discovery_keys[place] = key as u32)
}

fn set_record_key(m: &mut Machine, a: &mut Args) -> Answer {
    let (place, key) = key(a, MAX_RECORDS, ADDRESS)?;
    routing_changed(m, |c| c.record_keys[place] = key as u16)
}

fn set_neighbor_key(m: &mut Machine, a: &mut Args) -> Answer {
    let (place, key) = key(a, MAX_NEIGHBORS, ANY)?;
    neighbors_changed(m, |c| c.keys[place] = key)
}

fn set_waiting_key(m: &mut Machine, a: &mut Args) -> Answer {
    let (place, key) = key(a, MAX_NEIGHBORS, ADDRESS)?;
    neighbors_changed(m, |c| c.senders[place] = key as u16)
}

fn set_store(m: &mut Machine, a: &mut Args) -> Answer {
    let (place, number) = (a.place()?, a.address()?);
    a.end()?;
    let mut numbers = *m.store.numbers();
    match numbers.get_mut(place) {
        Some(there) => *there = number,
        None if place == RELAY_STORE_LENGTH => {} // the number after a store, which no call reads
        None => return Err(Stop::Bad),
    }
    m.store = RelayStore::from_numbers(numbers);
    Ok(vec![])
}

fn set_store_length(m: &mut Machine, a: &mut Args) -> Answer {
    let length = a.place()?;
    a.end()?;
    if length > RELAY_STORE_LENGTH + 1 {
        return Err(Stop::Bad);
    }
    m.lent = length;
    Ok(vec![])
}

/// The lines that put the state, each table as far as its count says, and `end`.
pub fn tables(m: &Machine) -> String {
    let (r, n) = (m.routing.columns(), m.neighbors.columns());
    let counters = [r.request_sequence_number, r.mtorr_route_errors, r.mtorr_delivery_failures];
    let mut lines = written("put_counters", &counters.map(u64::from));
    for row in codec::routes(r).used() {
        lines += &written("put_route", &codec::route_numbers(row));
    }
    for row in codec::discoveries(r).used() {
        lines += &written("put_discovery", &codec::discovery_numbers(row));
    }
    for row in codec::records(r, &m.store, m.lent).used() {
        let count = row[1].min(MAX_RELAYS as u64);
        let relays = &row[2..][..count as usize];
        lines += &written("put_record", &[&[row[0], count], relays].concat());
    }
    for row in codec::neighbors(n).used() {
        lines += &written("put_neighbour", &codec::neighbor_numbers(row));
    }
    for row in codec::waiting(n).used() {
        lines += &written("put_waiting", &codec::waiting_numbers(row));
    }
    lines + "end\n"
}
