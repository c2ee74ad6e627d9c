//! The decision, and the header that it reads and writes.

use crate::answer::Answer;
use crate::call::{Call, Done};
use crate::nwk::frame::{NwkFrame, NwkFrameControl, NwkFrameType, NwkHeader, NwkRouteDiscovery, NwkSourceRoute};
use crate::nwk::next_hop::{HostRoute, NextHop, Policy, RouteDirective, SendMode, resolve};
use crate::panics::refused_if_it_panics;
use crate::parse::{Args, Read, Stop};
use crate::route_calls::DEFAULT_LIMIT;
use crate::world::{RELAYS, World};

/// Document 01: concentrator yes, force discovery no, longest source route 12.
const DEFAULT: Policy = Policy { is_concentrator: true, force_route_discovery: false, max_source_route: DEFAULT_LIMIT };

pub fn call(word: &[u8]) -> Option<Call> {
    Some(match word {
        b"resolve" => resolve_given,
        b"resolve_default" => resolve_default,
        b"clear_end_device_initiator_for_relay" => clear_end_device_initiator_for_relay,
        _ => return None,
    })
}

fn resolve_given(w: &mut World, a: &mut Args, out: &mut Answer) -> Done {
    let policy = Policy { is_concentrator: a.flag()?, force_route_discovery: a.flag()?, max_source_route: a.u8()? };
    decide(w, a, policy, out)
}

fn resolve_default(w: &mut World, a: &mut Args, out: &mut Answer) -> Done {
    decide(w, a, DEFAULT, out)
}

fn decide(w: &mut World, a: &mut Args, policy: Policy, out: &mut Answer) -> Done {
    let (mode, nwk_header) = (mode(a)?, header(a)?);
    a.end()?;
    w.neighbors_formed()?;
    if host_relays(&mode) > RELAYS || header_relays(&nwk_header) > RELAYS {
        return Err(Stop::Refuse(8));
    }
    let mut frame = NwkFrame { nwk_header };
    let hop = refused_if_it_panics(|| resolve(&w.routing, &w.neighbors, &mut frame, &mode, policy))?;
    match hop {
        NextHop::Resolved(hop) => out.n(0u8).n(hop),
        NextHop::NeedDiscovery => out.n(1u8),
        NextHop::Discard => out.n(2u8),
    };
    header_numbers(&frame.nwk_header, out);
    Ok(())
}

fn clear_end_device_initiator_for_relay(w: &mut World, a: &mut Args, out: &mut Answer) -> Done {
    let mut header = header(a)?;
    a.end()?;
    w.neighbors_formed()?;
    if header_relays(&header) > RELAYS {
        return Err(Stop::Refuse(8));
    }
    out.n(w.neighbors.clear_end_device_initiator_for_relay(&mut header));
    header_numbers(&header, out);
    Ok(())
}

fn host_relays(mode: &SendMode) -> usize {
    match mode {
        SendMode::Route(RouteDirective::Hint(HostRoute::SourceRoute(relays)))
        | SendMode::Route(RouteDirective::Force(HostRoute::SourceRoute(relays))) => relays.len(),
        _ => 0,
    }
}

fn header_relays(header: &NwkHeader) -> usize {
    header.source_route.as_ref().map_or(0, |route| route.relays.len())
}

fn mode(a: &mut Args) -> Read<SendMode> {
    Ok(match a.number(5)? {
        0 => SendMode::Direct,
        1 => SendMode::Route(RouteDirective::StackDecides),
        2 => SendMode::Route(RouteDirective::Hint(HostRoute::NextHop(a.nwk()?))),
        3 => SendMode::Route(RouteDirective::Hint(HostRoute::SourceRoute(a.list(Args::nwk)?))),
        4 => SendMode::Route(RouteDirective::Force(HostRoute::NextHop(a.nwk()?))),
        _ => SendMode::Route(RouteDirective::Force(HostRoute::SourceRoute(a.list(Args::nwk)?))),
    })
}

const FRAME_TYPES: [Option<NwkFrameType>; 4] =
    [Some(NwkFrameType::Data), Some(NwkFrameType::Command), None, Some(NwkFrameType::Interpan)];

const DISCOVER: [Option<NwkRouteDiscovery>; 3] =
    [Some(NwkRouteDiscovery::Suppress), Some(NwkRouteDiscovery::Enable), Some(NwkRouteDiscovery::WithMulticast)];

/// The version has four bits and the reserved field two.
fn header(a: &mut Args) -> Read<NwkHeader> {
    Ok(NwkHeader {
        frame_control: NwkFrameControl {
            frame_type: a.variant(&FRAME_TYPES)?,
            protocol_version: a.number(15)? as u8,
            discover_route: a.variant(&DISCOVER)?,
            multicast: a.flag()?,
            security: a.flag()?,
            source_route: a.flag()?,
            destination: a.flag()?,
            extended_source: a.flag()?,
            end_device_initiator: a.flag()?,
            reserved1: a.number(3)? as u8,
        },
        destination: a.nwk()?,
        source: a.nwk()?,
        radius: a.u8()?,
        sequence_number: a.u8()?,
        destination_ieee: a.option(Args::eui)?,
        source_ieee: a.option(Args::eui)?,
        multicast_control: a.option(Args::u8)?,
        source_route: a.option(source_route)?,
    })
}

fn source_route(a: &mut Args) -> Read<NwkSourceRoute> {
    Ok(NwkSourceRoute { relay_index: a.u8()?, relays: a.list(Args::nwk)? })
}

fn header_numbers(header: &NwkHeader, out: &mut Answer) {
    let control = &header.frame_control;
    out.n(control.frame_type as u8)
        .n(control.protocol_version)
        .n(control.discover_route as u8)
        .n(control.multicast)
        .n(control.security)
        .n(control.source_route)
        .n(control.destination)
        .n(control.extended_source)
        .n(control.end_device_initiator)
        .n(control.reserved1)
        .n(header.destination)
        .n(header.source)
        .n(header.radius)
        .n(header.sequence_number)
        .option(header.destination_ieee)
        .option(header.source_ieee)
        .option(header.multicast_control);
    match &header.source_route {
        Some(route) => out.n(true).n(route.relay_index).list(&route.relays),
        None => out.n(false),
    };
}
