//! The calls on the routing state.

use crate::answer::Answer;
use crate::call::{Call, Done};
use crate::nwk::commands::NwkRouteRequestManyToOne as ManyToOne;
use crate::nwk::routing::{Route, RouteReplyDisposition, Status};
use crate::panics::refused_if_it_panics;
use crate::parse::{Args, Stop};
use crate::room::{self, Expired, sum};
use crate::table_lines::route_numbers;
use crate::types::Nwk;
use crate::world::{RELAYS, World};

/// The longest source route of the default policy.
pub const DEFAULT_LIMIT: u8 = 12;

pub fn call(word: &[u8]) -> Option<Call> {
    Some(match word {
        b"note_route_error" => note_route_error,
        b"note_delivery_failure" => note_delivery_failure,
        b"reset_mtorr_triggers" => reset_mtorr_triggers,
        b"route_status" => route_status,
        b"route_count" => route_count,
        b"route_at" => route_at,
        b"next_hop" => next_hop,
        b"mark_discovery_failed" => mark_discovery_failed,
        b"record_usage" => record_usage,
        b"decay_activity" => decay_activity,
        b"invalidate_via" => invalidate_via,
        b"remove_route" => remove_route,
        b"restore_route" => restore_route,
        b"store_route_record" => store_route_record,
        b"remove_route_record" => remove_route_record,
        b"note_source_routed_frame" => note_source_routed_frame,
        b"note_relayed_discovery" => note_relayed_discovery,
        b"discovery_deadline" => discovery_deadline,
        b"route_to" => route_to,
        b"route_to_default" => route_to_default,
        b"begin_discovery" => begin_discovery,
        b"begin_many_to_one_advertisement" => begin_many_to_one_advertisement,
        b"accept_route_request" => accept_route_request,
        b"accept_route_reply" => accept_route_reply,
        b"check" => check,
        _ => return None,
    })
}

fn note_route_error(w: &mut World, a: &mut Args, out: &mut Answer) -> Done {
    let threshold = a.u8()?;
    a.end()?;
    out.n(w.routing.note_route_error(threshold));
    Ok(())
}

fn note_delivery_failure(w: &mut World, a: &mut Args, out: &mut Answer) -> Done {
    let threshold = a.u8()?;
    a.end()?;
    out.n(w.routing.note_delivery_failure(threshold));
    Ok(())
}

fn reset_mtorr_triggers(w: &mut World, a: &mut Args, _: &mut Answer) -> Done {
    a.end()?;
    w.routing.reset_mtorr_triggers();
    Ok(())
}

fn route_status(w: &mut World, a: &mut Args, out: &mut Answer) -> Done {
    let destination = a.nwk()?;
    a.end()?;
    out.option(w.routing.route_status(destination).map(|status| status as u8));
    Ok(())
}

fn route_count(w: &mut World, a: &mut Args, out: &mut Answer) -> Done {
    a.end()?;
    out.n(w.routing.entries().count());
    Ok(())
}

fn route_at(w: &mut World, a: &mut Args, out: &mut Answer) -> Done {
    let place = a.u64()?;
    a.end()?;
    let place = usize::try_from(place).unwrap_or(usize::MAX);
    match w.routing.entries().nth(place) {
        Some(entry) => route_numbers(out.n(true), entry),
        None => out.n(false),
    };
    Ok(())
}

fn next_hop(w: &mut World, a: &mut Args, out: &mut Answer) -> Done {
    let destination = a.nwk()?;
    a.end()?;
    out.option(refused_if_it_panics(|| w.routing.next_hop(destination))?);
    Ok(())
}

fn mark_discovery_failed(w: &mut World, a: &mut Args, _: &mut Answer) -> Done {
    let destination = a.nwk()?;
    a.end()?;
    w.routing.mark_discovery_failed(destination);
    Ok(())
}

fn record_usage(w: &mut World, a: &mut Args, _: &mut Answer) -> Done {
    let destination = a.nwk()?;
    a.end()?;
    w.routing.record_usage(destination);
    Ok(())
}

fn decay_activity(w: &mut World, a: &mut Args, _: &mut Answer) -> Done {
    a.end()?;
    w.routing.decay_activity();
    Ok(())
}

fn invalidate_via(w: &mut World, a: &mut Args, _: &mut Answer) -> Done {
    let hop = a.nwk()?;
    a.end()?;
    w.routing.invalidate_via(hop);
    Ok(())
}

fn remove_route(w: &mut World, a: &mut Args, out: &mut Answer) -> Done {
    let destination = a.nwk()?;
    a.end()?;
    out.n(w.routing.remove_route(destination));
    Ok(())
}

fn restore_route(w: &mut World, a: &mut Args, _: &mut Answer) -> Done {
    let (destination, hop, cost) = (a.nwk()?, a.nwk()?, a.u8()?);
    a.end()?;
    room::route_room(w, destination)?;
    w.routing.restore_route(destination, hop, cost);
    Ok(())
}

fn store_route_record(w: &mut World, a: &mut Args, out: &mut Answer) -> Done {
    let (source, relays) = (a.nwk()?, a.list(Args::nwk)?);
    a.end()?;
    if relays.len() > RELAYS {
        return Err(Stop::Refuse(8));
    }
    room::record_room(w, source, &relays)?;
    out.n(w.routing.store_route_record(source, relays));
    Ok(())
}

fn remove_route_record(w: &mut World, a: &mut Args, out: &mut Answer) -> Done {
    let destination = a.nwk()?;
    a.end()?;
    out.n(w.routing.remove_route_record(destination));
    Ok(())
}

fn note_source_routed_frame(w: &mut World, a: &mut Args, _: &mut Answer) -> Done {
    let concentrator = a.nwk()?;
    a.end()?;
    w.routing.note_source_routed_frame(concentrator);
    Ok(())
}

fn note_relayed_discovery(w: &mut World, a: &mut Args, _: &mut Answer) -> Done {
    let destination = a.nwk()?;
    a.end()?;
    room::route_room(w, destination)?;
    w.routing.note_relayed_discovery(destination);
    Ok(())
}

fn discovery_deadline(w: &mut World, a: &mut Args, out: &mut Answer) -> Done {
    let (destination, now) = (a.nwk()?, a.u64()?);
    a.end()?;
    w.reach(now);
    let deadline = w.routing.discovery_deadline(destination, w.scale.moment(now));
    out.option(deadline.map(|moment| w.scale.ms(moment)));
    Ok(())
}

fn route_to(w: &mut World, a: &mut Args, out: &mut Answer) -> Done {
    let (destination, limit) = (a.nwk()?, a.u8()?);
    a.end()?;
    answer_route(w, destination, limit, out)
}

fn route_to_default(w: &mut World, a: &mut Args, out: &mut Answer) -> Done {
    let destination = a.nwk()?;
    a.end()?;
    answer_route(w, destination, DEFAULT_LIMIT, out)
}

fn answer_route(w: &World, destination: Nwk, limit: u8, out: &mut Answer) -> Done {
    match refused_if_it_panics(|| w.routing.route_to(destination, limit))? {
        None => out.n(0u8),
        Some(Route::NextHop(hop)) => out.n(1u8).n(hop),
        Some(Route::SourceRouted(relays)) => out.n(2u8).list(&relays),
    };
    Ok(())
}

fn begin_discovery(w: &mut World, a: &mut Args, out: &mut Answer) -> Done {
    let (own, destination, now, span) = (a.nwk()?, a.nwk()?, a.u64()?, a.u64()?);
    a.end()?;
    w.reach(now);
    let key = (own, w.routing.peek_counters()[0].wrapping_add(1));
    let after = Expired::at(w, now);
    if !after.has_discovery(key) {
        let until = sum(now, span)?;
        w.reach(until);
    }
    let after = Expired::at(w, now);
    after.route_room(destination)?;
    after.discovery_room(key)?;
    let (now, span) = (w.scale.moment(now), w.scale.span(span));
    out.n(w.routing.begin_discovery(own, destination, now, span));
    Ok(())
}

fn begin_many_to_one_advertisement(w: &mut World, a: &mut Args, out: &mut Answer) -> Done {
    let (own, now, span) = (a.nwk()?, a.u64()?, a.u64()?);
    a.end()?;
    let until = sum(now, span)?;
    w.reach(until);
    let key = (own, w.routing.peek_counters()[0].wrapping_add(1));
    Expired::at(w, now).discovery_room(key)?;
    let (now, span) = (w.scale.moment(now), w.scale.span(span));
    out.n(w.routing.begin_many_to_one_advertisement(own, now, span));
    Ok(())
}

const MANY_TO_ONE: [Option<ManyToOne>; 4] = [
    Some(ManyToOne::NotManyToOne),
    Some(ManyToOne::ManyToOneSenderSupportsRouteRecordTable),
    Some(ManyToOne::ManyToOneSenderDoesntSupportRouteRecordTable),
    Some(ManyToOne::Reserved),
];

fn accept_route_request(w: &mut World, a: &mut Args, out: &mut Answer) -> Done {
    let (originator, id, destination) = (a.nwk()?, a.u8()?, a.nwk()?);
    let (sender, cost, many_to_one) = (a.nwk()?, a.u8()?, a.variant(&MANY_TO_ONE)?);
    let (now, span) = (a.u64()?, a.u64()?);
    a.end()?;
    w.reach(now);
    let key = (originator, id);
    let known = Expired::at(w, now).forward_cost(key);
    if known.is_none() {
        let until = sum(now, span)?;
        w.reach(until);
    }
    if known.is_none_or(|forward| cost <= forward) {
        let after = Expired::at(w, now);
        after.route_room(originator)?;
        after.discovery_room(key)?;
    }
    let (now, span) = (w.scale.moment(now), w.scale.span(span));
    let outcome = w.routing.accept_route_request(originator, id, destination, sender, cost, many_to_one, now, span);
    out.n(outcome.accepted).update(outcome.update);
    Ok(())
}

fn accept_route_reply(w: &mut World, a: &mut Args, out: &mut Answer) -> Done {
    let (own, originator, id) = (a.nwk()?, a.nwk()?, a.u8()?);
    let (responder, sender, cost) = (a.nwk()?, a.nwk()?, a.u8()?);
    a.end()?;
    // Only a relay can make a route, the originator's.
    let residual = w.routing.peek_discoveries().get(&(originator, id)).map(|e| e.residual_cost);
    let relays = residual.is_some_and(|residual| cost < residual) && originator != own;
    if relays && w.routing.route_status(responder).is_some() {
        room::route_room(w, originator)?;
    }
    let outcome = w.routing.accept_route_reply(own, originator, id, responder, sender, cost);
    match outcome.disposition {
        RouteReplyDisposition::Drop => out.n(0u8),
        RouteReplyDisposition::Established => out.n(1u8),
        RouteReplyDisposition::Relay { next_hop, path_cost } => out.n(2u8).n(next_hop).n(path_cost),
    };
    out.update(outcome.update);
    Ok(())
}

/// The table check, which the Rust lacks: the first fault in ascending order of destination.
fn check(w: &mut World, a: &mut Args, out: &mut Answer) -> Done {
    a.end()?;
    let named = |destination| {
        let mut all = w.routing.peek_discoveries().values();
        all.any(|entry| entry.destination_address == destination)
    };
    for entry in w.routing.entries() {
        let unknown_hop = entry.next_hop_address == Nwk(0xFFFF);
        match entry.status {
            Status::Active if unknown_hop => {
                out.n(1u8).n(entry.destination);
                return Ok(());
            }
            Status::DiscoveryUnderway if !named(entry.destination) => {
                out.n(2u8).n(entry.destination);
                return Ok(());
            }
            _ => {}
        }
    }
    out.n(0u8);
    Ok(())
}
