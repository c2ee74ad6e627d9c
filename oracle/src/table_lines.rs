//! The lines that set a state up, and the one that prints it.

use crate::answer::Answer;
use crate::call::{Call, Done};
use crate::nwk::NwkDeviceType;
use crate::nwk::neighbors::{Relationship, TableEntry as Neighbor};
use crate::nwk::routing::{DiscoveryEntry, Status, TableEntry as RouteEntry};
use crate::parse::{Args, Read, Stop};
use crate::ring_buffer::peek::Samples;
use crate::world::{DISCOVERIES, NEIGHBORS, RECORDS, RELAYS, ROUTES, WAITING, World};

pub fn call(word: &[u8]) -> Option<Call> {
    Some(match word {
        b"reset" => reset,
        b"put_counters" => put_counters,
        b"put_route" => put_route,
        b"put_discovery" => put_discovery,
        b"put_record" => put_record,
        b"put_neighbour" => put_neighbor,
        b"put_waiting" => put_waiting,
        _ => return None,
    })
}

/// A full table makes a `put_` line bad, unless it puts over an entry of its key.
fn room(full: bool, known: bool) -> Done {
    if full && !known { Err(Stop::Bad) } else { Ok(()) }
}

fn reset(w: &mut World, a: &mut Args, _: &mut Answer) -> Done {
    a.end()?;
    w.reset();
    Ok(())
}

fn put_counters(w: &mut World, a: &mut Args, _: &mut Answer) -> Done {
    let counters = [a.u8()?, a.u8()?, a.u8()?];
    a.end()?;
    w.routing.poke_counters(counters);
    Ok(())
}

const STATUSES: [Option<Status>; 4] =
    [Some(Status::Active), Some(Status::DiscoveryUnderway), Some(Status::DiscoveryFailed), Some(Status::Inactive)];

fn put_route(w: &mut World, a: &mut Args, _: &mut Answer) -> Done {
    let entry = RouteEntry {
        destination: a.nwk()?,
        status: a.variant(&STATUSES)?,
        no_route_cache: a.flag()?,
        many_to_one: a.flag()?,
        route_record_required: a.flag()?,
        expired: a.flag()?,
        next_hop_address: a.nwk()?,
        path_cost: a.u8()?,
        total_usage_count: a.u32()?,
        recent_activity: a.u8()?,
    };
    a.end()?;
    let table = w.routing.poke_routes();
    room(table.len() >= ROUTES, table.contains_key(&entry.destination))?;
    table.insert(entry.destination, entry);
    Ok(())
}

fn put_discovery(w: &mut World, a: &mut Args, _: &mut Answer) -> Done {
    let (source, id, sender) = (a.nwk()?, a.u8()?, a.nwk()?);
    let (forward, residual, expires) = (a.u8()?, a.u8()?, a.u64()?);
    let destination = a.nwk()?;
    a.end()?;
    let table = w.routing.peek_discoveries();
    room(table.len() >= DISCOVERIES, table.contains_key(&(source, id)))?;
    w.reach(expires);
    let entry = DiscoveryEntry {
        route_request_id: id,
        source_address: source,
        sender_address: sender,
        forward_cost: forward,
        residual_cost: residual,
        expiration_time: w.scale.moment(expires),
        destination_address: destination,
    };
    w.routing.poke_discoveries().insert((source, id), entry);
    Ok(())
}

/// A record that no row can hold is a list past its capacity: refusal 8.
fn put_record(w: &mut World, a: &mut Args, _: &mut Answer) -> Done {
    let (destination, relays) = (a.nwk()?, a.list(Args::nwk)?);
    a.end()?;
    if relays.len() > RELAYS {
        return Err(Stop::Refuse(8));
    }
    let table = w.routing.poke_records();
    room(table.len() >= RECORDS, table.contains_key(&destination))?;
    table.insert(destination, relays);
    Ok(())
}

pub const DEVICE_TYPES: [Option<NwkDeviceType>; 3] =
    [Some(NwkDeviceType::Coordinator), Some(NwkDeviceType::Router), Some(NwkDeviceType::EndDevice)];

/// The relationship by its number. The Rust's type cannot be copied, so this is no list of values.
pub fn relationship(a: &mut Args) -> Read<Relationship> {
    Ok(match a.number(9)? {
        0 => Relationship::Parent,
        1 => Relationship::Child,
        2 => Relationship::Sibling,
        3 => Relationship::NoneOfTheAbove,
        4 => Relationship::PreviousChild,
        5 => Relationship::UnauthenticatedChild,
        6 => Relationship::UnauthorizedChildWithRelayAllowed,
        7 => Relationship::LostChild,
        8 => Relationship::AddressConflictChild,
        _ => Relationship::BackboneMeshSibling,
    })
}

fn relationship_number(relationship: &Relationship) -> u8 {
    match relationship {
        Relationship::Parent => 0,
        Relationship::Child => 1,
        Relationship::Sibling => 2,
        Relationship::NoneOfTheAbove => 3,
        Relationship::PreviousChild => 4,
        Relationship::UnauthenticatedChild => 5,
        Relationship::UnauthorizedChildWithRelayAllowed => 6,
        Relationship::LostChild => 7,
        Relationship::AddressConflictChild => 8,
        Relationship::BackboneMeshSibling => 9,
    }
}

fn samples(a: &mut Args) -> Read<Samples> {
    Ok(Samples { count: a.u8()?, next: a.u8()?, values: [a.u8()?, a.u8()?, a.u8()?] })
}

fn put_neighbor(w: &mut World, a: &mut Args, _: &mut Answer) -> Done {
    let (eui, nwk, device_type, rx_on) = (a.eui()?, a.nwk()?, a.variant(&DEVICE_TYPES)?, a.flag()?);
    let (configuration, timeout_at, period) = (a.u16()?, a.u64()?, a.u64()?);
    let (relationship, failures, samples) = (relationship(a)?, a.u8()?, samples(a)?);
    let (outgoing_cost, last_status) = (a.u8()?, a.u64()?);
    let (beacon_time, beacon_offset, keepalive) = (a.u32()?, a.u32()?, a.flag()?);
    let (sent, received, added) = (a.u32()?, a.u32()?, a.u64()?);
    let [connectivity, diversity, outbound, inbound, timer] = [a.u8()?, a.u8()?, a.u8()?, a.u8()?, a.u8()?];
    a.end()?;
    let table = w.neighbors.peek_table();
    room(table.len() >= NEIGHBORS, table.contains_key(&eui))?;
    w.reach(timeout_at.max(period).max(last_status).max(added));
    let entry = Neighbor {
        extended_address: eui,
        network_address: nwk,
        device_type,
        rx_on_when_idle: rx_on,
        end_device_configuration: configuration,
        timeout_at: w.scale.moment(timeout_at),
        device_timeout: w.scale.span(period),
        relationship,
        transmit_failure: failures,
        lqas: samples.ring(),
        outgoing_cost,
        last_link_status_timestamp: w.scale.moment(last_status),
        incoming_beacon_timestamp: beacon_time,
        beacon_transmission_time_offset: beacon_offset,
        keepalive_received: keepalive,
        mac_unicast_bytes_transmitted: sent,
        mac_unicast_bytes_received: received,
        router_added_timestamp: w.scale.moment(added),
        router_connectivity: connectivity,
        router_neighbor_set_diversity: diversity,
        router_outbound_activity: outbound,
        router_inbound_activity: inbound,
        security_timer: timer,
    };
    w.neighbors.poke_table().insert(eui, entry);
    w.suspect = true;
    Ok(())
}

fn put_waiting(w: &mut World, a: &mut Args, _: &mut Answer) -> Done {
    let (nwk, samples) = (a.nwk()?, samples(a)?);
    a.end()?;
    let table = w.neighbors.poke_waiting();
    room(table.len() >= WAITING, table.contains_key(&nwk))?;
    table.insert(nwk, samples.ring());
    w.suspect = true;
    Ok(())
}

/// A route as `put_route` takes it.
pub fn route_numbers<'a>(out: &'a mut Answer, entry: &RouteEntry) -> &'a mut Answer {
    out.n(entry.destination)
        .n(entry.status as u8)
        .n(entry.no_route_cache)
        .n(entry.many_to_one)
        .n(entry.route_record_required)
        .n(entry.expired)
        .n(entry.next_hop_address)
        .n(entry.path_cost)
        .n(entry.total_usage_count)
        .n(entry.recent_activity)
}

fn sample_numbers(out: &mut Answer, samples: Samples) -> &mut Answer {
    out.n(samples.count).n(samples.next);
    for value in samples.values {
        out.n(value);
    }
    out
}

/// A neighbour as `put_neighbour` takes it.
pub fn neighbor_numbers(w: &World, entry: &Neighbor, out: &mut Answer) {
    out.n(entry.extended_address)
        .n(entry.network_address)
        .n(entry.device_type as u8)
        .n(entry.rx_on_when_idle)
        .n(entry.end_device_configuration)
        .n(w.scale.ms(entry.timeout_at))
        .n(w.scale.span_ms(entry.device_timeout))
        .n(relationship_number(&entry.relationship))
        .n(entry.transmit_failure);
    sample_numbers(out, Samples::of(&entry.lqas))
        .n(entry.outgoing_cost)
        .n(w.scale.ms(entry.last_link_status_timestamp))
        .n(entry.incoming_beacon_timestamp)
        .n(entry.beacon_transmission_time_offset)
        .n(entry.keepalive_received)
        .n(entry.mac_unicast_bytes_transmitted)
        .n(entry.mac_unicast_bytes_received)
        .n(w.scale.ms(entry.router_added_timestamp))
        .n(entry.router_connectivity)
        .n(entry.router_neighbor_set_diversity)
        .n(entry.router_outbound_activity)
        .n(entry.router_inbound_activity)
        .n(entry.security_timer);
}

/// The whole state as `put_` lines, each table ascending, then `end`.
pub fn tables(w: &World, out: &mut Answer) {
    let [id, errors, failures] = w.routing.peek_counters();
    out.word("put_counters").n(id).n(errors).n(failures).line();
    for entry in w.routing.peek_routes().values() {
        route_numbers(out.word("put_route"), entry).line();
    }
    for entry in w.routing.peek_discoveries().values() {
        out.word("put_discovery")
            .n(entry.source_address)
            .n(entry.route_request_id)
            .n(entry.sender_address)
            .n(entry.forward_cost)
            .n(entry.residual_cost)
            .n(w.scale.ms(entry.expiration_time))
            .n(entry.destination_address)
            .line();
    }
    for (&destination, relays) in w.routing.peek_records() {
        out.word("put_record").n(destination).list(relays).line();
    }
    for entry in w.neighbors.peek_table().values() {
        out.word("put_neighbour");
        neighbor_numbers(w, entry, out);
        out.line();
    }
    for (&nwk, ring) in w.neighbors.peek_waiting() {
        sample_numbers(out.word("put_waiting").n(nwk), Samples::of(ring)).line();
    }
    out.word("end").line();
}
