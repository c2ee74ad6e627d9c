//! The words that call the neighbors.

use super::args::Args;
use super::routing_words::addresses;
use super::{list, option, Answer, Machine, Stop, Word};
use warpteasel::{
    lqi_to_link_cost, Child, DeviceType, Eui64, LinkStatus, LinkStatusCommand, NeighborEntry, Neighbors, Nwk, Refusal,
    Relationship,
};

pub fn word(word: &[u8]) -> Option<Word> {
    Some(match word {
        b"lqi_to_link_cost" => link_cost,
        b"record_lqa" => record_lqa,
        b"link" => link,
        b"neighbour_count" => |m, a| count(m, a, Neighbors::neighbor_count),
        b"neighbour_at" => neighbor_at,
        b"lqa" => |m, a| entry(m, a, |e| option(e.lqa.map(|lqa| vec![lqa.into()]))),
        b"incoming_link_cost" => |m, a| entry(m, a, |e| vec![e.incoming_link_cost.into()]),
        b"is_child" => |m, a| entry(m, a, |e| vec![e.is_child.into()]),
        b"has_network_address" => |m, a| nwk(a).and_then(|nwk| told(m.neighbors.has_network_address(nwk))),
        b"end_device_child_eui64" => |m, a| nwk(a).and_then(|nwk| name(m.neighbors.end_device_child_eui64(nwk))),
        b"sleepy_child_eui64" => |m, a| nwk(a).and_then(|nwk| name(m.neighbors.sleepy_child_eui64(nwk))),
        b"sleepy_children" => |m, a| a.end().and_then(|()| Ok(devices(&m.neighbors.sleepy_children()?))),
        b"contains" => |m, a| eui64(a).and_then(|eui64| told(m.neighbors.contains(eui64))),
        b"device_capability" => device_capability,
        b"end_device_child_count" => |m, a| count(m, a, Neighbors::end_device_child_count),
        b"refresh_child_timeout" => refresh_child_timeout,
        b"set_child_timeout" => set_child_timeout,
        b"update_network_address" => update_network_address,
        b"take_child" => take_child,
        b"end_device_children" => |m, a| a.end().and_then(|()| Ok(names(&m.neighbors.end_device_children()?))),
        b"is_unconfirmed_end_device_child" => {
            |m, a| eui64(a).and_then(|eui64| told(m.neighbors.is_unconfirmed_end_device_child(eui64)))
        }
        b"remove_claimed_children" => remove_claimed_children,
        b"process_parent_annce" => process_parent_annce,
        b"evict_timed_out_children" => evict_timed_out_children,
        b"next_child_timeout" => next_child_timeout,
        b"upsert_child" => upsert_child,
        b"remove" => |m, a| eui64(a).and_then(|eui64| done(m.neighbors.remove(eui64))),
        b"any_live_router_link" => |m, a| a.end().and_then(|()| told(m.neighbors.any_live_router_link())),
        b"expected_broadcast_relayers" => {
            |m, a| a.end().and_then(|()| Ok(addresses(&m.neighbors.expected_broadcast_relayers()?)))
        }
        b"link_status_entries" => link_status_entries,
        b"record_outbound_activity" => |m, a| eui64(a).and_then(|e| done(m.neighbors.record_outbound_activity(e))),
        b"record_inbound_activity" => |m, a| nwk(a).and_then(|nwk| done(m.neighbors.record_inbound_activity(nwk))),
        b"record_transmit_failure" => |m, a| eui64(a).and_then(|e| done(m.neighbors.record_transmit_failure(e))),
        b"reset_transmit_failures" => |m, a| a.end().and_then(|()| done(m.neighbors.reset_transmit_failures())),
        b"on_link_status" => on_link_status,
        _ => return None,
    })
}

/// The only number, a network address.
fn nwk(a: &mut Args) -> Result<Nwk, Stop> {
    let nwk = a.nwk()?;
    a.end()?;
    Ok(nwk)
}

/// The only number, an extended address.
fn eui64(a: &mut Args) -> Result<Eui64, Stop> {
    let eui64 = a.eui64()?;
    a.end()?;
    Ok(eui64)
}

fn done(answer: Result<(), Refusal>) -> Answer {
    Ok(answer.map(|()| vec![])?)
}

fn told(answer: Result<bool, Refusal>) -> Answer {
    Ok(answer.map(|yes| vec![yes.into()])?)
}

fn name(answer: Result<Option<Eui64>, Refusal>) -> Answer {
    Ok(option(answer?.map(|eui64| vec![eui64.number()])))
}

fn count(m: &mut Machine, a: &mut Args, call: fn(&Neighbors) -> Result<usize, Refusal>) -> Answer {
    a.end()?;
    Ok(vec![call(&m.neighbors)? as u64])
}

/// What is asked of the entry of an extended address, where there is one.
fn entry(m: &mut Machine, a: &mut Args, asked: fn(NeighborEntry) -> Vec<u64>) -> Answer {
    let eui64 = eui64(a)?;
    Ok(option(m.neighbors.entry(eui64)?.map(asked)))
}

fn devices(all: &[(Eui64, Nwk)]) -> Vec<u64> {
    list(all, |(eui64, nwk)| vec![eui64.number(), nwk.0.into()])
}

fn names(all: &[Eui64]) -> Vec<u64> {
    list(all, |eui64| vec![eui64.number()])
}

fn link_cost(_: &mut Machine, a: &mut Args) -> Answer {
    let lqi = a.byte()?;
    a.end()?;
    Ok(vec![lqi_to_link_cost(lqi).into()])
}

fn record_lqa(m: &mut Machine, a: &mut Args) -> Answer {
    let (nwk, lqi) = (a.nwk()?, a.byte()?);
    a.end()?;
    done(m.neighbors.record_lqa(nwk, lqi))
}

fn link(m: &mut Machine, a: &mut Args) -> Answer {
    let nwk = nwk(a)?;
    let link = m.neighbors.link(nwk)?;
    Ok(option(link.map(|link| vec![link.eui64.number(), link.outgoing_cost.into(), link.incoming_cost.into()])))
}

fn neighbor_at(m: &mut Machine, a: &mut Args) -> Answer {
    let place = a.place()?;
    a.end()?;
    Ok(option(m.neighbors.neighbor_at(place)?.map(|e| {
        vec![
            e.extended_address.number(),
            e.network_address.0.into(),
            e.device_type as u64,
            e.rx_on_when_idle.into(),
            e.end_device_configuration.into(),
            e.timeout_at,
            e.device_timeout,
            e.relationship as u64,
            e.transmit_failure.into(),
            e.samples_held.into(),
            e.next_sample.into(),
            e.samples[0].into(),
            e.samples[1].into(),
            e.samples[2].into(),
            e.outgoing_cost.into(),
            e.last_link_status_timestamp,
            e.incoming_beacon_timestamp.into(),
            e.beacon_transmission_time_offset.into(),
            e.keepalive_received.into(),
            e.mac_unicast_bytes_transmitted.into(),
            e.mac_unicast_bytes_received.into(),
            e.router_added_timestamp,
            e.router_connectivity.into(),
            e.router_neighbor_set_diversity.into(),
            e.router_outbound_activity.into(),
            e.router_inbound_activity.into(),
            e.security_timer.into(),
        ]
    })))
}

fn device_capability(m: &mut Machine, a: &mut Args) -> Answer {
    let eui64 = eui64(a)?;
    let capability = m.neighbors.device_capability(eui64)?;
    Ok(option(capability.map(|c| vec![c.device_type as u64, c.rx_on_when_idle.into()])))
}

fn refresh_child_timeout(m: &mut Machine, a: &mut Args) -> Answer {
    let (eui64, nwk, now) = (a.option(Args::eui64)?, a.option(Args::nwk)?, a.any()?);
    a.end()?;
    told(m.neighbors.refresh_child_timeout(eui64, nwk, now))
}

fn set_child_timeout(m: &mut Machine, a: &mut Args) -> Answer {
    let (nwk, span, configuration, now) = (a.nwk()?, a.any()?, a.address()?, a.any()?);
    a.end()?;
    told(m.neighbors.set_child_timeout(nwk, span, configuration, now))
}

fn update_network_address(m: &mut Machine, a: &mut Args) -> Answer {
    let (eui64, nwk) = (a.eui64()?, a.nwk()?);
    a.end()?;
    done(m.neighbors.update_network_address(eui64, nwk))
}

fn take_child(m: &mut Machine, a: &mut Args) -> Answer {
    let eui64 = eui64(a)?;
    Ok(option(m.neighbors.take_child(eui64)?.map(|nwk| vec![nwk.0.into()])))
}

fn remove_claimed_children(m: &mut Machine, a: &mut Args) -> Answer {
    let claims = a.list(Args::eui64)?;
    a.end()?;
    Ok(devices(&m.neighbors.remove_claimed_children(&claims)?))
}

fn process_parent_annce(m: &mut Machine, a: &mut Args) -> Answer {
    let announced = a.list(Args::eui64)?;
    a.end()?;
    let outcome = m.neighbors.process_parent_annce(&announced)?;
    Ok([names(&outcome.claimed), devices(&outcome.removed)].concat())
}

fn evict_timed_out_children(m: &mut Machine, a: &mut Args) -> Answer {
    let now = a.any()?;
    a.end()?;
    Ok(devices(&m.neighbors.evict_timed_out_children(now)?))
}

fn next_child_timeout(m: &mut Machine, a: &mut Args) -> Answer {
    a.end()?;
    Ok(option(m.neighbors.next_child_timeout()?.map(|time| vec![time])))
}

const DEVICE_TYPES: [DeviceType; 3] = [DeviceType::Coordinator, DeviceType::Router, DeviceType::EndDevice];

const RELATIONSHIPS: [Relationship; 10] = [
    Relationship::Parent,
    Relationship::Child,
    Relationship::Sibling,
    Relationship::NoneOfTheAbove,
    Relationship::PreviousChild,
    Relationship::UnauthenticatedChild,
    Relationship::UnauthorizedChildWithRelayAllowed,
    Relationship::LostChild,
    Relationship::AddressConflictChild,
    Relationship::BackboneMeshSibling,
];

fn upsert_child(m: &mut Machine, a: &mut Args) -> Answer {
    let child = Child {
        eui64: a.eui64()?,
        network_address: a.nwk()?,
        device_type: a.one_of(&DEVICE_TYPES)?,
        rx_on_when_idle: a.flag()?,
        device_timeout: a.any()?,
        relationship: a.one_of(&RELATIONSHIPS)?,
    };
    let now = a.any()?;
    a.end()?;
    done(m.neighbors.upsert_child(&child, now))
}

fn link_status_entries(m: &mut Machine, a: &mut Args) -> Answer {
    a.end()?;
    let entries = m.neighbors.link_status_entries()?;
    Ok(list(&entries, |e| vec![e.address.0.into(), e.incoming_cost.into(), e.outgoing_cost.into()]))
}

fn on_link_status(m: &mut Machine, a: &mut Args) -> Answer {
    let (own, eui64, nwk, lqi) = (a.nwk()?, a.eui64()?, a.nwk()?, a.byte()?);
    let (is_first_frame, is_last_frame, now) = (a.flag()?, a.flag()?, a.any()?);
    let link_statuses =
        &a.list(|a| Ok(LinkStatus { address: a.nwk()?, incoming_cost: a.byte()?, outgoing_cost: a.byte()? }))?;
    a.end()?;
    let command = LinkStatusCommand { eui64, nwk, lqi, is_first_frame, is_last_frame, link_statuses };
    Ok(option(m.neighbors.on_link_status(own, &command, now)?.map(|lost| vec![lost.0.into()])))
}
