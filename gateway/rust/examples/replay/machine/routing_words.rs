//! The words that call the routing state.

use super::args::Args;
use super::{list, option, Answer, Machine, Stop, Word};
use warpteasel::{
    Check, ManyToOne, Nwk, Refusal, Route, RouteReply, RouteReplyDisposition, RouteRequest, RouteUpdate, Routing,
};

pub fn word(word: &[u8]) -> Option<Word> {
    Some(match word {
        b"check" => check,
        b"note_route_error" => |m, a| threshold(a).and_then(|t| told(m.routing.note_route_error(t))),
        b"note_delivery_failure" => |m, a| threshold(a).and_then(|t| told(m.routing.note_delivery_failure(t))),
        b"reset_mtorr_triggers" => |m, a| a.end().and_then(|()| done(m.routing.reset_mtorr_triggers())),
        b"route_status" => route_status,
        b"route_count" => |m, a| count(a, || m.routing.route_count()),
        b"route_at" => route_at,
        b"next_hop" => next_hop,
        b"mark_discovery_failed" => |m, a| on_address(m, a, Routing::mark_discovery_failed),
        b"record_usage" => |m, a| on_address(m, a, Routing::record_usage),
        b"decay_activity" => |m, a| a.end().and_then(|()| done(m.routing.decay_activity())),
        b"invalidate_via" => |m, a| on_address(m, a, Routing::invalidate_via),
        b"remove_route" => remove_route,
        b"restore_route" => restore_route,
        b"store_route_record" => store_route_record,
        b"remove_route_record" => remove_route_record,
        b"note_source_routed_frame" => |m, a| on_address(m, a, Routing::note_source_routed_frame),
        b"note_relayed_discovery" => |m, a| on_address(m, a, Routing::note_relayed_discovery),
        b"discovery_deadline" => discovery_deadline,
        b"route_to" => route_to,
        b"route_to_default" => route_to_default,
        b"begin_discovery" => begin_discovery,
        b"begin_many_to_one_advertisement" => begin_many_to_one_advertisement,
        b"accept_route_request" => accept_route_request,
        b"accept_route_reply" => accept_route_reply,
        b"discovery_count" => |m, a| count(a, || m.routing.discovery_count()),
        b"discovery_at" => discovery_at,
        b"record_count" => |m, a| count(a, || m.routing.record_count()),
        b"record_at" => record_at,
        _ => return None,
    })
}

fn done(answer: Result<(), Refusal>) -> Answer {
    Ok(answer.map(|()| vec![])?)
}

fn told(answer: Result<bool, Refusal>) -> Answer {
    Ok(answer.map(|yes| vec![yes.into()])?)
}

/// The only number, a threshold.
fn threshold(a: &mut Args) -> Result<u8, Stop> {
    let threshold = a.byte()?;
    a.end()?;
    Ok(threshold)
}

/// The only number, an address.
fn address(a: &mut Args) -> Result<Nwk, Stop> {
    let address = a.nwk()?;
    a.end()?;
    Ok(address)
}

/// The only number, a place.
fn place(a: &mut Args) -> Result<usize, Stop> {
    let place = a.place()?;
    a.end()?;
    Ok(place)
}

fn count(a: &mut Args, counted: impl FnOnce() -> Result<usize, Refusal>) -> Answer {
    a.end()?;
    Ok(vec![counted()? as u64])
}

fn on_address(m: &mut Machine, a: &mut Args, call: fn(&mut Routing, Nwk) -> Result<(), Refusal>) -> Answer {
    let address = address(a)?;
    done(call(&mut m.routing, address))
}

fn check(m: &mut Machine, a: &mut Args) -> Answer {
    a.end()?;
    Ok(match m.routing.check()? {
        Check::Sound => vec![0],
        Check::UnknownHop(destination) => vec![1, destination.0.into()],
        Check::Orphan(destination) => vec![2, destination.0.into()],
    })
}

fn route_status(m: &mut Machine, a: &mut Args) -> Answer {
    let destination = address(a)?;
    Ok(option(m.routing.route_status(destination)?.map(|status| vec![status as u64])))
}

fn route_at(m: &mut Machine, a: &mut Args) -> Answer {
    let entry = m.routing.route_at(place(a)?)?;
    Ok(option(entry.map(|e| {
        vec![
            e.destination.0.into(),
            e.status as u64,
            e.no_route_cache.into(),
            e.many_to_one.into(),
            e.route_record_required.into(),
            e.expired.into(),
            e.next_hop_address.0.into(),
            e.path_cost.into(),
            e.total_usage_count.into(),
            e.recent_activity.into(),
        ]
    })))
}

fn next_hop(m: &mut Machine, a: &mut Args) -> Answer {
    let destination = address(a)?;
    Ok(option(m.routing.next_hop(destination)?.map(|hop| vec![hop.0.into()])))
}

fn remove_route(m: &mut Machine, a: &mut Args) -> Answer {
    let destination = address(a)?;
    told(m.routing.remove_route(destination))
}

fn restore_route(m: &mut Machine, a: &mut Args) -> Answer {
    let (destination, hop, cost) = (a.nwk()?, a.nwk()?, a.byte()?);
    a.end()?;
    done(m.routing.restore_route(destination, hop, cost))
}

fn store_route_record(m: &mut Machine, a: &mut Args) -> Answer {
    let (source, relays) = (a.nwk()?, a.list(Args::nwk)?);
    a.end()?;
    m.store_lent()?;
    told(m.routing.store_route_record(&mut m.store, source, &relays))
}

fn remove_route_record(m: &mut Machine, a: &mut Args) -> Answer {
    let destination = address(a)?;
    m.store_lent()?;
    told(m.routing.remove_route_record(&mut m.store, destination))
}

fn discovery_deadline(m: &mut Machine, a: &mut Args) -> Answer {
    let (destination, now) = (a.nwk()?, a.any()?);
    a.end()?;
    Ok(option(m.routing.discovery_deadline(destination, now)?.map(|time| vec![time])))
}

fn route_to(m: &mut Machine, a: &mut Args) -> Answer {
    let (destination, limit) = (a.nwk()?, a.byte()?);
    a.end()?;
    m.store_lent()?;
    Ok(way(m.routing.route_to(&m.store, destination, limit)?))
}

fn route_to_default(m: &mut Machine, a: &mut Args) -> Answer {
    let destination = address(a)?;
    m.store_lent()?;
    Ok(way(m.routing.route_to_default(&m.store, destination)?))
}

fn way(route: Option<Route>) -> Vec<u64> {
    match route {
        None => vec![0],
        Some(Route::NextHop(hop)) => vec![1, hop.0.into()],
        Some(Route::SourceRouted(relays)) => [vec![2], addresses(&relays)].concat(),
    }
}

/// A count, and each address.
pub fn addresses(all: &[Nwk]) -> Vec<u64> {
    list(all, |address| vec![address.0.into()])
}

fn begin_discovery(m: &mut Machine, a: &mut Args) -> Answer {
    let (own, destination, now, span) = (a.nwk()?, a.nwk()?, a.any()?, a.any()?);
    a.end()?;
    Ok(vec![m.routing.begin_discovery(own, destination, now, span)?.into()])
}

fn begin_many_to_one_advertisement(m: &mut Machine, a: &mut Args) -> Answer {
    let (own, now, span) = (a.nwk()?, a.any()?, a.any()?);
    a.end()?;
    Ok(vec![m.routing.begin_many_to_one_advertisement(own, now, span)?.into()])
}

const MANY_TO_ONE: [ManyToOne; 4] = [
    ManyToOne::NotManyToOne,
    ManyToOne::SenderSupportsRouteRecordTable,
    ManyToOne::SenderDoesntSupportRouteRecordTable,
    ManyToOne::Reserved,
];

fn accept_route_request(m: &mut Machine, a: &mut Args) -> Answer {
    let request = RouteRequest {
        originator: a.nwk()?,
        request_id: a.byte()?,
        destination: a.nwk()?,
        sender: a.nwk()?,
        updated_path_cost: a.byte()?,
        many_to_one: a.one_of(&MANY_TO_ONE)?,
    };
    let (now, span) = (a.any()?, a.any()?);
    a.end()?;
    let outcome = m.routing.accept_route_request(&request, now, span)?;
    Ok([vec![outcome.accepted.into()], update(outcome.update)].concat())
}

fn accept_route_reply(m: &mut Machine, a: &mut Args) -> Answer {
    let own = a.nwk()?;
    let reply = RouteReply {
        originator: a.nwk()?,
        request_id: a.byte()?,
        responder: a.nwk()?,
        sender: a.nwk()?,
        updated_path_cost: a.byte()?,
    };
    a.end()?;
    let outcome = m.routing.accept_route_reply(own, &reply)?;
    let disposition = match outcome.disposition {
        RouteReplyDisposition::Drop => vec![0],
        RouteReplyDisposition::Established => vec![1],
        RouteReplyDisposition::Relay { next_hop, path_cost } => vec![2, next_hop.0.into(), path_cost.into()],
    };
    Ok([disposition, update(outcome.update)].concat())
}

fn update(update: Option<RouteUpdate>) -> Vec<u64> {
    option(update.map(|u| vec![u.destination.0.into(), u.next_hop.0.into(), u.path_cost.into()]))
}

fn discovery_at(m: &mut Machine, a: &mut Args) -> Answer {
    let entry = m.routing.discovery_at(place(a)?)?;
    Ok(option(entry.map(|e| {
        vec![
            e.source_address.0.into(),
            e.route_request_id.into(),
            e.sender_address.0.into(),
            e.forward_cost.into(),
            e.residual_cost.into(),
            e.expiration_time,
            e.destination_address.0.into(),
        ]
    })))
}

fn record_at(m: &mut Machine, a: &mut Args) -> Answer {
    let place = place(a)?;
    m.store_lent()?;
    let record = m.routing.record_at(&m.store, place)?;
    Ok(option(record.map(|r| [vec![r.destination.0.into()], addresses(&r.relays)].concat())))
}
