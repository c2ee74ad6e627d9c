//! The Rust's calls: tables filled as the library `speed` fills its own, a call for each row, the answers added up.

use core::time::Duration;

use oracle::Instant;
use oracle::nwk::NwkDeviceType;
use oracle::nwk::commands::{NwkLinkStatus, NwkLinkStatusCommand, NwkRouteRequestManyToOne as ManyToOne};
use oracle::nwk::frame::{NwkFrame, NwkFrameControl, NwkFrameType, NwkHeader, NwkRouteDiscovery};
use oracle::nwk::neighbors::{ChildDescriptor, Neighbors, Relationship};
use oracle::nwk::next_hop::{NextHop, Policy, RouteDirective, SendMode, resolve};
use oracle::nwk::routing::{Route, RouteReplyDisposition, Routing};
use oracle::types::{Eui64, Nwk};

use super::inputs::ROW;

fn sum(rows: &[u64], mut weight: impl FnMut(&[u64; ROW]) -> u64) -> u64 {
    rows.as_chunks::<ROW>().0.iter().fold(0, |sum: u64, row| sum.wrapping_add(weight(row)))
}

fn nwk(number: u64) -> Nwk {
    Nwk(number as u16)
}

fn moment(ms: u64) -> Instant {
    Instant::from_micros(ms * 1000)
}

/// Routes to 1 .. size, and searches of all but one of half as many originators.
fn filled(size: u16) -> Routing {
    let mut routing = Routing::default();
    for address in 1..=size {
        routing.restore_route(Nwk(address), Nwk(2000), 3);
    }
    let span = Duration::from_millis(1_000_000_000_000);
    for address in 1..size / 2 {
        let none = ManyToOne::NotManyToOne;
        routing.accept_route_request(Nwk(address), 1, Nwk(3000), Nwk(2000), 200, none, moment(0), span);
    }
    routing
}

/// The same with the records of 1 .. size.
fn recorded(size: u16) -> Routing {
    let mut routing = filled(size);
    for source in 4..=size {
        routing.store_route_record(Nwk(source), vec![Nwk(1), Nwk(2), Nwk(3)]);
    }
    routing
}

pub fn requests(size: u16, rows: &[u64]) -> u64 {
    let mut routing = filled(size);
    sum(rows, |&[originator, id, destination, sender, cost, _, now, _]| {
        let (none, span) = (ManyToOne::NotManyToOne, Duration::from_millis(1000));
        let (originator, destination, sender) = (nwk(originator), nwk(destination), nwk(sender));
        let now = moment(now);
        routing.accept_route_request(originator, id as u8, destination, sender, cost as u8, none, now, span).accepted
            as u64
    })
}

pub fn replies(size: u16, rows: &[u64]) -> u64 {
    let mut routing = filled(size);
    sum(rows, |&[own, originator, id, responder, sender, cost, ..]| {
        let (own, originator, responder) = (nwk(own), nwk(originator), nwk(responder));
        match routing.accept_route_reply(own, originator, id as u8, responder, nwk(sender), cost as u8).disposition {
            RouteReplyDisposition::Drop => 1,
            RouteReplyDisposition::Established => 2,
            RouteReplyDisposition::Relay { next_hop, path_cost } => u64::from(next_hop.0) + u64::from(path_cost),
        }
    })
}

pub fn begins(size: u16, rows: &[u64]) -> u64 {
    let mut routing = filled(size);
    sum(rows, |&[own, destination, now, span, ..]| {
        let span = Duration::from_millis(span);
        u64::from(routing.begin_discovery(nwk(own), nwk(destination), moment(now), span))
    })
}

pub fn next_hops(size: u16, rows: &[u64]) -> u64 {
    let routing = filled(size);
    sum(rows, |&[destination, ..]| routing.next_hop(nwk(destination)).map_or(1, |hop| u64::from(hop.0)))
}

pub fn records(size: u16, rows: &[u64]) -> u64 {
    let mut routing = recorded(size);
    sum(rows, |row| {
        let relays = row[2..2 + row[1] as usize % 4].iter().map(|&relay| nwk(relay)).collect();
        routing.store_route_record(nwk(row[0]), relays) as u64
    })
}

pub fn queries(size: u16, rows: &[u64]) -> u64 {
    let routing = recorded(size);
    sum(rows, |&[destination, limit, ..]| match routing.route_to(nwk(destination), limit as u8) {
        None => 1,
        Some(Route::NextHop(hop)) => u64::from(hop.0),
        Some(Route::SourceRouted(relays)) => relays.len() as u64 + u64::from(relays[0].0),
    })
}

/// The links to 1 .. 8.
fn command() -> NwkLinkStatusCommand {
    let status = |n: u8| NwkLinkStatus { address: Nwk(n.into()), incoming_cost: n % 8, outgoing_cost: n % 3 };
    let link_statuses = (1..=8).map(status).collect();
    NwkLinkStatusCommand { is_first_frame: true, is_last_frame: true, link_statuses }
}

/// The neighbours 1 .. size, each a router.
fn linked(size: u16) -> Neighbors {
    let (mut neighbors, command) = (Neighbors::default(), command());
    for n in 1..=size {
        neighbors.on_link_status(Nwk(1), Eui64::from_number(n.into()), Nwk(n), 200, &command, moment(0));
    }
    neighbors
}

pub fn links(size: u16, rows: &[u64]) -> u64 {
    let (mut neighbors, command) = (linked(size), command());
    sum(rows, |&[own, name, sender, quality, now, ..]| {
        let (name, now) = (Eui64::from_number(name), moment(now));
        let lost = neighbors.on_link_status(nwk(own), name, nwk(sender), quality as u8, &command, now);
        lost.map_or(1, |address| u64::from(address.0))
    })
}

/// The same neighbours, with an end device child at each odd address.
fn parented(size: u16) -> Neighbors {
    let mut neighbors = linked(size);
    for n in (1..size).step_by(2) {
        let child = ChildDescriptor {
            eui64: Eui64::from_number(n.into()),
            network_address: Nwk(n),
            device_type: NwkDeviceType::EndDevice,
            rx_on_when_idle: true,
            device_timeout: Duration::from_millis(1000),
            relationship: Relationship::Child,
        };
        neighbors.upsert_child(child, moment(0));
    }
    neighbors
}

fn header(destination: Nwk, source: Nwk) -> NwkHeader {
    let frame_control = NwkFrameControl {
        frame_type: NwkFrameType::Data,
        protocol_version: 2,
        discover_route: NwkRouteDiscovery::Enable,
        multicast: false,
        security: true,
        source_route: false,
        destination: false,
        extended_source: false,
        end_device_initiator: false,
        reserved1: 0,
    };
    NwkHeader {
        frame_control,
        destination,
        source,
        radius: 30,
        sequence_number: 0,
        destination_ieee: None,
        source_ieee: None,
        multicast_control: None,
        source_route: None,
    }
}

pub fn decisions(size: u16, rows: &[u64]) -> u64 {
    let (routing, neighbors) = (recorded(size), parented(size));
    let mode = SendMode::Route(RouteDirective::StackDecides);
    sum(rows, |&[destination, source, ..]| {
        let policy = Policy { is_concentrator: true, force_route_discovery: false, max_source_route: 12 };
        let mut frame = NwkFrame { nwk_header: header(nwk(destination), nwk(source)) };
        let hop = match resolve(&routing, &neighbors, &mut frame, &mode, policy) {
            NextHop::Resolved(hop) => u64::from(hop.0),
            NextHop::NeedDiscovery => 1,
            NextHop::Discard => 2,
        };
        hop + frame.nwk_header.source_route.map_or(0, |route| route.relays.len() as u64)
    })
}
